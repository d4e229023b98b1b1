/* Where a driver calls the kit. A function that ends by a call may jump to it: then the address behind the call is that of an outer one. The jump is looked for in the function that was called
 * there. */
#include "image/calls.h"
#include "image/code.h"
#include "image/machine.h"

enum { FURTHEST = 1 << 16, HOPS = 4, BY_POINTER = 0x25ff, CALL = 0xe8 };

typedef struct {
    const KzImage *image;
    KzBytes code; /* as it was laid out */
    uint64_t stub;
} Search;

static uint32_t word_at(const Search *search, uint64_t at)
{
    uint32_t word = 0;
    kz_copy(search->code, at, &word, sizeof word);
    return word;
}

/* The jump by a pointer, of 6 bytes, goes to the stub. */
static bool is_to_stub(const Search *search, uint64_t at)
{
    uint64_t to = 0;
    kz_copy(search->code, at + 6 + (uint64_t)(int64_t)(int32_t)word_at(search, at + 2), &to, sizeof to);
    return to == search->stub;
}

static bool is_stub_of(const Search *search, uint64_t at)
{
    return (word_at(search, at) & 0xffff) == BY_POINTER && is_to_stub(search, at);
}

/* The jump in the function that begins there; 0 if there is none. */
static uint64_t find_jump(const Search *search, uint64_t begin, int hops)
{
    const KzFunction *function = kz_function_at(search->image, (uintptr_t)search->image->bytes.start + begin);
    uint64_t end = function && function->begin == begin ? function->end : begin + FURTHEST;
    KzInstruction one;
    for (uint64_t at = begin; at < end && at < search->code.size && kz_decode(search->code.start + at, search->code.size - at, &one); at += one.length) {
        uint64_t to = at + one.length + (uint64_t)(int64_t)one.distance;
        if (one.flow == KZ_JUMPS_BY_POINTER && one.base == KZ_RIP && is_to_stub(search, at + one.length - 6))
            return at;
        if (one.flow == KZ_JUMPS && (!function || to < begin || to >= end)) {
            uint64_t found = is_stub_of(search, to) ? at : hops > 0 ? find_jump(search, to, hops - 1) : 0;
            if (found)
                return found;
        }
        if (!function && (one.flow == KZ_RETURNS || one.flow == KZ_STOPS || one.flow == KZ_JUMPS))
            break;
    }
    return 0;
}

static const void *found_in(const KzImage *image, uint64_t function, const char *stub, const void *otherwise)
{
    Search search = {image, {image->pristine, image->bytes.size}, (uintptr_t)kz_find_export(stub)};
    uint64_t at = search.stub ? find_jump(&search, function, HOPS) : 0;
    return at ? image->bytes.start + at + 1 : otherwise;
}

const void *kz_call_by_jump(const void *behind, const char *stub)
{
    const KzImage *image = kz_image_at((uintptr_t)behind);
    const void *function = kz_me->place.function;
    if (!image) { /* the host called the function that jumped */
        image = kz_image_at((uintptr_t)function);
        return image ? found_in(image, (uintptr_t)function - (uintptr_t)image->bytes.start, stub, behind) : behind;
    }
    Search search = {image, {image->pristine, image->bytes.size}, 0};
    uint64_t at = (uintptr_t)behind - (uintptr_t)image->bytes.start;
    if (at < 5 || image->pristine[at - 5] != CALL)
        return behind;
    uint64_t to = at + (uint64_t)(int64_t)(int32_t)word_at(&search, at - 4);
    return to < image->bytes.size && (word_at(&search, to) & 0xffff) != BY_POINTER ? found_in(image, to, stub, behind) : behind;
}
