/* decode FILE.sys: each instruction of its functions by .pdata, as llvm-objdump says it: where it stands, where the next one does, and its operand in memory. Without a word: what
 * instructions whose bytes stand below do with memory. */
#include "image/instruction.h"
#include "image/pe.h"

#include <stdio.h>
#include <stdlib.h>
#include <string.h>

typedef struct {
    uint32_t begin, end, unwind;
} Function;

static const char *const names[] = {"%rax", "%rcx", "%rdx", "%rbx", "%rsp", "%rbp", "%rsi", "%rdi", "%r8", "%r9", "%r10", "%r11", "%r12", "%r13", "%r14", "%r15", "%rip"};

static void put_operand(const KzInstruction *one)
{
    if (!one->has_memory)
        return;
    printf(" ");
    if (one->displacement || (one->base == KZ_NONE && one->index == KZ_NONE) || one->base == KZ_RIP)
        printf("%d", one->displacement);
    if (one->base == KZ_NONE && one->index == KZ_NONE)
        return;
    printf("(%s", one->base == KZ_NONE ? "" : names[one->base]);
    if (one->index != KZ_NONE) {
        printf(",%s", names[one->index]);
        if (one->scale || one->base == KZ_NONE)
            printf(",%u", 1U << one->scale);
    }
    printf(")");
}

static int list(const char *path)
{
    KzHeaders headers;
    KzRefusal why;
    static uint8_t room[1 << 24];
    FILE *from = fopen(path, "rb");
    KzBytes file = {room, from ? fread(room, 1, sizeof room, from) : 0};
    if (!kz_read_headers(file, &headers, &why))
        return printf("%s\n", why.text), 1;
    KzBytes image = {calloc(1, headers.size), headers.size};
    Function one;
    if (!kz_lay_out(&headers, file, image, headers.linked, &why))
        return 1;
    for (size_t row = 0; kz_copy(kz_directory(&headers, image, KZ_EXCEPTIONS), row * sizeof one, &one, sizeof one); row++)
        for (uint32_t at = one.begin; at < one.end;) {
            KzInstruction here;
            if (!kz_decode(image.start + at, one.end - at, &here))
                return printf("%llx isn't known\n", (unsigned long long)headers.linked + at), 1;
            printf("%llx %llx", (unsigned long long)headers.linked + at, (unsigned long long)headers.linked + at + here.length);
            put_operand(&here);
            printf("\n");
            at += here.length;
            if (here.has_memory && here.base == KZ_RIP && at + here.displacement > at && at + here.displacement < one.end)
                one.end = at + here.displacement; /* a table of a switch stands behind its function's code */
        }
    fclose(from);
    free(image.start);
    return 0;
}

/* By Intel's manual, each worked out by hand. */
enum { R = KZ_READS, W = KZ_WRITES, RW = KZ_READS | KZ_WRITES, L = KZ_LOCKED, S = KZ_STRING };
static const struct {
    const char *bytes;
    unsigned length, how, size;
} rows[] = {
    {"\x01\x08", 2, RW, 4},                                  /* add [rax], ecx */
    {"\x03\x08", 2, R, 4},                                   /* add ecx, [rax] */
    {"\x39\x08", 2, R, 4},                                   /* cmp [rax], ecx */
    {"\x48\x83\x38\x00", 4, R, 8},                           /* cmp qword ptr [rax], 0 */
    {"\x83\x00\x01", 3, RW, 4},                              /* add dword ptr [rax], 1 */
    {"\x66\x81\x00\x34\x12", 5, RW, 2},                      /* add word ptr [rax], 1234h */
    {"\x8b\x08", 2, R, 4},                                   /* mov ecx, [rax] */
    {"\x88\x08", 2, W, 1},                                   /* mov [rax], cl */
    {"\xc7\x00\x01\x00\x00\x00", 6, W, 4},                   /* mov dword ptr [rax], 1 */
    {"\x8d\x08", 2, 0, 0},                                   /* lea ecx, [rax] */
    {"\x8b\xc8", 2, 0, 0},                                   /* mov ecx, eax */
    {"\xf0\xff\x00", 3, RW | L, 4},                          /* lock inc dword ptr [rax] */
    {"\xff\x00", 2, RW, 4},                                  /* inc dword ptr [rax] */
    {"\x87\x08", 2, RW | L, 4},                              /* xchg [rax], ecx */
    {"\xf0\x0f\xc1\x08", 4, RW | L, 4},                      /* lock xadd [rax], ecx */
    {"\xf0\x48\x0f\xb1\x0d\x00\x00\x00\x00", 9, RW | L, 8},  /* lock cmpxchg [rip], rcx */
    {"\xf0\x48\x0f\xc7\x08", 5, RW | L, 16},                 /* lock cmpxchg16b [rax] */
    {"\xf0\x0f\xba\x28\x03", 5, RW | L, 4},                  /* lock bts dword ptr [rax], 3 */
    {"\x0f\xba\x20\x03", 4, R, 4},                           /* bt dword ptr [rax], 3 */
    {"\x0f\xb6\x08", 3, R, 1},                               /* movzx ecx, byte ptr [rax] */
    {"\x48\x0f\xbf\x08", 4, R, 2},                           /* movsx rcx, word ptr [rax] */
    {"\x48\x63\x08", 3, R, 4},                               /* movsxd rcx, dword ptr [rax] */
    {"\xf6\x00\x01", 3, R, 1},                               /* test byte ptr [rax], 1 */
    {"\xf7\x18", 2, RW, 4},                                  /* neg dword ptr [rax] */
    {"\xd1\x20", 2, RW, 4},                                  /* shl dword ptr [rax], 1 */
    {"\x0f\x94\x00", 3, W, 1},                               /* sete byte ptr [rax] */
    {"\x0f\x44\x08", 3, R, 4},                               /* cmove ecx, [rax] */
    {"\x0f\x11\x00", 3, W, 16},                              /* movups [rax], xmm0 */
    {"\x0f\x10\x00", 3, R, 16},                              /* movups xmm0, [rax] */
    {"\xf3\x0f\x7f\x00", 4, W, 16},                          /* movdqu [rax], xmm0 */
    {"\xf2\x0f\x11\x00", 4, W, 8},                           /* movsd [rax], xmm0 */
    {"\x66\x0f\xd6\x00", 4, W, 8},                           /* movq [rax], xmm0 */
    {"\x66\x0f\xef\x00", 4, R, 16},                          /* pxor xmm0, [rax] */
    {"\xf3\xaa", 2, W | S, 1},                               /* rep stosb */
    {"\xf3\x48\xa5", 3, RW | S, 8},                          /* rep movsq */
    {"\x0f\x1f\x00", 3, 0, 0},                               /* nop [rax] */
    {"\x0f\x18\x00", 3, 0, 0},                               /* prefetchnta [rax] */
    {"\x44\x0f\x20\xc0", 4, 0, 0},                           /* mov rax, cr8 */
    {"\x48\xb8\x01\x02\x03\x04\x05\x06\x07\x08", 10, 0, 0},  /* mov rax, 0807060504030201h */
    {"\xc5\xf8\x77", 3, 0, 0},                               /* vzeroupper */
};

static int compare_rows(void)
{
    int wrong = 0;
    for (size_t at = 0; at < sizeof rows / sizeof rows[0]; at++) {
        KzInstruction one;
        uint8_t bytes[16] = {0};
        memcpy(bytes, rows[at].bytes, rows[at].length);
        bool is_known = kz_decode(bytes, sizeof bytes, &one);
        KzOperand said = is_known ? kz_operand(&one) : (KzOperand){99, 99};
        if (!is_known || one.length != rows[at].length || said.how != rows[at].how || said.size != rows[at].size || kz_decode(bytes, rows[at].length - 1, &one)) {
            printf("row %zu: length %u, how %u, size %u\n", at, one.length, said.how, said.size);
            wrong++;
        }
    }
    return wrong != 0;
}

int main(int count, char **words)
{
    return count > 1 ? list(words[1]) : compare_rows();
}
