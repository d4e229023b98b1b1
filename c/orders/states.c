/* The states that were met, by 128 bits of a checksum. */
#include "search.h"

static struct {
    OrKey *table;
    size_t size, count;
} states;

static OrKey *seat(OrKey *table, size_t size, OrKey key)
{
    size_t at = key.one & (size - 1);
    while ((table[at].one || table[at].other) && !(table[at].one == key.one && table[at].other == key.other))
        at = (at + 1) & (size - 1);
    return &table[at];
}

static void grow(void)
{
    size_t size = states.size ? states.size * 2 : 4096;
    OrKey *table = calloc(size, sizeof *table);
    if (!table)
        or_no_memory();
    for (size_t at = 0; at < states.size; at++)
        if (states.table[at].one || states.table[at].other)
            *seat(table, size, states.table[at]) = states.table[at];
    free(states.table);
    states.table = table;
    states.size = size;
}

bool or_is_new(OrKey key)
{
    if (2 * states.count >= states.size)
        grow();
    OrKey *found = seat(states.table, states.size, key);
    if (found->one || found->other)
        return false;
    *found = key;
    states.count++;
    return true;
}
