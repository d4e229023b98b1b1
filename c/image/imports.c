/* What a binary imports: each place of its table gets the address of what it names. */
#include "image/pe.h"

#include <string.h>

typedef struct {
    uint32_t names, stamp, forwards, module, places;
} Descriptor;

enum { LONGEST_MODULE = 64, LONGEST_NAME = 256, BY_NUMBER = 63 };

static bool bind_one(KzBytes image, uint64_t name, uint64_t place, const char *module, KzFindImport *find, void *given, KzRefusal *why)
{
    if (name >> BY_NUMBER)
        return kz_refuse(why, "it imports number %u of %s: only names can be found", (unsigned)(name & 0xffff), module);
    const char *text = kz_text_at(image, name + 2, LONGEST_NAME); /* behind a hint */
    if (!text || !*text)
        return kz_refuse(why, "it has an import of %s without a name", module);
    uint64_t found = find(given, module, text);
    uint8_t *to = kz_bytes_at(image, place, sizeof found);
    if (!found || !to)
        return kz_refuse(why, "its import %s of %s can't be bound", text, module);
    memcpy(to, &found, sizeof found);
    return true;
}

/* Names lie in a table that ends with a 0, places in one beside it. A table may be both: a name is read before its place is written. */
static bool bind_module(KzBytes image, const Descriptor *one, const char *module, KzFindImport *find, void *given, KzRefusal *why)
{
    uint64_t names = one->names ? one->names : one->places, places = one->places, name;
    for (; kz_copy(image, names, &name, sizeof name); names += 8, places += 8) {
        if (!name)
            return true;
        if (!bind_one(image, name, places, module, find, given, why))
            return false;
    }
    return kz_refuse(why, "its imports of %s have no end", module);
}

bool kz_bind(const KzHeaders *headers, KzBytes image, KzFindImport *find, void *given, KzRefusal *why)
{
    KzBytes table = kz_directory(headers, image, IMAGE_DIRECTORY_ENTRY_IMPORT);
    Descriptor one;
    if (headers->directories[IMAGE_DIRECTORY_ENTRY_IMPORT].Size && !table.start)
        return kz_refuse(why, "its imports aren't in its image");
    for (size_t at = 0; kz_copy(table, at, &one, sizeof one) && one.module; at += sizeof one) {
        const char *module = kz_text_at(image, one.module, LONGEST_MODULE);
        if (!module || !*module || !one.places)
            return kz_refuse(why, "it imports from a module without a name");
        if (!bind_module(image, &one, module, find, given, why))
            return false;
    }
    return true;
}
