/* What a binary exports: a name for where its code stands, if nothing else has one. */
#include "image/pe.h"

typedef struct {
    uint32_t flags, stamp, version, name, first, functions_count, names_count, functions, names, numbers;
} Exports;

const char *kz_exported_name(const KzHeaders *headers, KzBytes image, uint32_t at)
{
    Exports exports;
    if (!kz_copy(kz_directory(headers, image, IMAGE_DIRECTORY_ENTRY_EXPORT), 0, &exports, sizeof exports))
        return NULL;
    for (uint64_t one = 0; one < exports.names_count; one++) {
        uint16_t number;
        uint32_t name, function;
        if (!kz_copy(image, exports.names + 4 * one, &name, sizeof name) || !kz_copy(image, exports.numbers + 2 * one, &number, sizeof number))
            return NULL;
        if (number < exports.functions_count && kz_copy(image, exports.functions + 4 * (uint64_t)number, &function, sizeof function) && function == at)
            return kz_text_at(image, name, 128);
    }
    return NULL;
}
