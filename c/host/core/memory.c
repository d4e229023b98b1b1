/* Memory of the host's own, which must be there. */
#include "core/memory.h"

#include <stdlib.h>

/* What a server keeps back: one request takes less than one of them. */
enum { BLOCKS = 2, BLOCK = 512 * 1024 };
static void *kept_back[BLOCKS];

unsigned kz_keep_back(void)
{
    unsigned count = 0;
    for (unsigned at = 0; at < BLOCKS; at++) {
        if (!kept_back[at])
            kept_back[at] = malloc(BLOCK);
        count += kept_back[at] != NULL;
    }
    return count;
}

bool kz_give_way(void)
{
    unsigned at = 0;
    while (at < BLOCKS && !kept_back[at])
        at++;
    if (at == BLOCKS)
        return false;
    free(kept_back[at]);
    kept_back[at] = NULL;
    return true;
}

/* Memory that is all zeros. A test program has no use of going on without. */
void *kz_memory(size_t size)
{
    void *memory;
    do
        memory = calloc(1, size ? size : 1);
    while (!memory && kz_give_way());
    if (!memory) {
        fprintf(stderr, "no memory\n");
        exit(1);
    }
    return memory;
}

char *kz_copy_of(const char *text)
{
    return strcpy(kz_memory(strlen(text) + 1), text);
}
