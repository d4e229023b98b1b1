/* levels FILE.sys: how many of its instructions that read or write the IRQL come to the host without a trap. */
#include "image/code.h"

static unsigned all, rewritten;
static const KzImage *here;

static void count(void *given, const KzCode *code)
{
    (void)given;
    for (size_t at = 0; at < code->count; at++) {
        const KzInstruction *one = &code->all[at].one;
        if (one->map != KZ_0F || (one->opcode != 0x20 && one->opcode != 0x22))
            continue;
        all++;
        rewritten += memcmp(here->bytes.start + code->all[at].at, here->pristine + code->all[at].at, one->length) != 0;
    }
}

static void look(const KzImage *image)
{
    here = image;
    kz_read_code(image, count, NULL);
}

int main(void)
{
    kz_each_image(look);
    printf("%u of %u\n", rewritten, all);
    return 0;
}
