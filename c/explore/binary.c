/* What a driver that is a binary reads and writes. Its code doesn't say what is volatile: one move of an aligned place may be, so it is taken as that, and is no race by itself. An update
 * without `lock` is one with another update of the same place: volatile or not, one of the two is lost. */
#include "explore.h"

static struct {
    const void *address;
    size_t size;
} read_by[RUNNERS + 1]; /* what each client read, to write it back changed */

static bool ends_update(const KzAccess *access)
{
    const unsigned me = kz_me->number;
    if (access->how & KZ_ACCESS_BEGINS) {
        read_by[me].address = access->address;
        read_by[me].size = access->size;
    }
    return access->how & KZ_ACCESS_ENDS && read_by[me].address == access->address && read_by[me].size == access->size;
}

static bool on_access(const KzAccess *access)
{
    bool is_write = access->how & KZ_ACCESS_WRITES;
    if (ex_is_stack(access->address))
        return false;
    if (access->how & KZ_ACCESS_CHANGES) {
        ex_note_change();
    } else if (access->how & KZ_ACCESS_LOCKED) {
        ex_access(access->address, access->size, true, true, access->from);
        ex_in_order(access->address);
    } else if (access->how & KZ_ACCESS_IS_SINGLE) {
        ex_move(access->address, access->size, is_write, ends_update(access), access->from);
    } else {
        ex_access(access->address, access->size, is_write, false, access->from);
    }
    return ex_is_heap(access->address) || ex_is_program(access->address);
}

void ex_watch_binaries(void)
{
    if (kz_binaries.watch)
        kz_binaries.watch(on_access);
}
