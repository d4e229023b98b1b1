/* A .pdb as a file of blocks: its streams lie in blocks that a directory lists, and the directory in blocks of its own (the multi-stream format, as LLVM's documentation has it). */
#include "image/pdb.h"

#include <stdlib.h>
#include <string.h>

enum { MAGIC = 32, LEAST_BLOCK = 512, LARGEST_BLOCK = 65536, MOST_STREAMS = 1 << 16 };

typedef struct {
    char magic[MAGIC];
    uint32_t block_size, free_blocks, blocks_count, directory_size, unknown, directory_at;
} Head;

static bool read_head(KzBytes file, Head *head)
{
    static const char magic[MAGIC] = "Microsoft C/C++ MSF 7.00\r\n\x1a" "DS\0\0";
    if (!kz_copy(file, 0, head, sizeof *head) || memcmp(head->magic, magic, MAGIC) != 0)
        return false;
    uint32_t size = head->block_size;
    return size >= LEAST_BLOCK && size <= LARGEST_BLOCK && (size & (size - 1)) == 0;
}

/* So many bytes of blocks whose numbers stand there. */
static KzBytes gather(KzBytes file, const Head *head, KzBytes numbers, uint64_t at, uint32_t size)
{
    KzBytes none = {NULL, 0}, to = {size && size <= file.size ? malloc(size) : NULL, size};
    for (uint32_t done = 0; to.start && done < size; done += head->block_size, at += 4) {
        uint32_t number, part = size - done < head->block_size ? size - done : head->block_size;
        if (kz_copy(numbers, at, &number, sizeof number) && kz_copy(file, (uint64_t)number * head->block_size, to.start + done, part))
            continue;
        free(to.start);
        return none;
    }
    return to.start ? to : none;
}

static uint32_t blocks_of(const Head *head, uint32_t size)
{
    return size == UINT32_MAX ? 0 : size / head->block_size + (size % head->block_size != 0);
}

KzBytes kz_pdb_stream(KzBytes file, unsigned number)
{
    Head head;
    KzBytes none = {NULL, 0};
    uint32_t count, size = 0;
    if (!read_head(file, &head))
        return none;
    KzBytes directory = gather(file, &head, file, (uint64_t)head.directory_at * head.block_size, head.directory_size), stream = none;
    if (kz_copy(directory, 0, &count, sizeof count) && number < count && count < MOST_STREAMS) {
        uint64_t at = 4 + 4 * (uint64_t)count;
        for (unsigned before = 0; before < number && kz_copy(directory, 4 + 4 * (uint64_t)before, &size, sizeof size); before++)
            at += 4 * (uint64_t)blocks_of(&head, size);
        if (kz_copy(directory, 4 + 4 * (uint64_t)number, &size, sizeof size) && size != UINT32_MAX)
            stream = gather(file, &head, directory, at, size);
    }
    free(directory.start);
    return stream;
}
