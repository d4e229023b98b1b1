/* Operations that wait in the file system, until what they wait for is there or they are to come to it again (STATUS_PENDING), their handle's cleanup is over, they are cancelled, or the volume goes; then whoever comes to one carries it on. */
#include "filesystem/waiting.h"

#include "core/client.h"
#include "core/memory.h"
#include "core/module.h"
#include "core/op.h"
#include "filesystem/store.h"

#include <stdlib.h>

typedef struct Waiting {
    struct Waiting *next;
    KzOp *op;
    bool is_due;
    NTSTATUS status;
} Waiting;

struct KzWaitingState {
    Waiting *first;
};

NTSTATUS kz_wait_in_file_system(KzOp *op)
{
    Waiting *made = kz_memory(sizeof *made), **end = &kz.waiting->first;
    made->op = op;
    while (*end)
        end = &(*end)->next;
    *end = made;
    return STATUS_PENDING;
}

static Waiting *waiting_of(const KzOp *op)
{
    Waiting *one = kz.waiting->first;
    while (one && (one->op != op || one->is_due))
        one = one->next;
    return one;
}

bool kz_still_waits(const KzOp *op, uint64_t number)
{
    const Waiting *one = waiting_of(op);
    return one && one->op->id == number;
}

static void make_due(Waiting *one, NTSTATUS status)
{
    kz_uses_all();
    one->is_due = true;
    one->status = status;
    kz_scheduler->touch(one->op, 0, KZT_GIVES);
    kz.changes++;
}

void kz_make_due(KzOp *op, NTSTATUS status)
{
    make_due(waiting_of(op), status);
}

KzOp *kz_first_waiting(const KzFile *file)
{
    for (const Waiting *one = kz.waiting->first; one; one = one->next)
        if (!one->is_due && one->op->file == file && one->op->opaque && one->op->opaque->major == IRP_MJ_DIRECTORY_CONTROL)
            return one->op;
    return NULL;
}

static NTSTATUS status_at_cleanup(const KzOp *op)
{
    return op->opaque->major == IRP_MJ_DIRECTORY_CONTROL ? STATUS_NOTIFY_CLEANUP : STATUS_RANGE_NOT_LOCKED;
}

void kz_end_waiting(const KzFile *file, PFLT_VOLUME volume)
{
    for (Waiting *one = kz.waiting->first; one; one = one->next)
        if (!one->is_due && (file ? one->op->file == file && !one->op->breaks.of : one->op->volume == volume))
            make_due(one, file ? status_at_cleanup(one->op) : STATUS_VOLUME_DISMOUNTED);
}

bool kz_cancel_waiting(KzOp *op)
{
    Waiting *one = waiting_of(op);
    if (one)
        make_due(one, STATUS_CANCELLED);
    return one;
}

static Waiting **first_due(void)
{
    Waiting **at = &kz.waiting->first;
    while (*at && (!(*at)->is_due || (*at)->op->is_returning))
        at = &(*at)->next;
    return at;
}

bool kz_has_due(void)
{
    return *first_due();
}

bool kz_run_waiting(void)
{
    Waiting **at = first_due();
    if (!*at)
        return false;
    Waiting *gone = *at;
    kz_uses_all();
    *at = gone->next;
    kz.store->go_on(gone->op, gone->status);
    free(gone);
    return true;
}

static void free_waiting(void)
{
    while (kz.waiting->first) {
        Waiting *gone = kz.waiting->first;
        kz.waiting->first = gone->next;
        free(gone);
    }
}

const KzModule kz_waiting_module = {KZ_STATE(waiting), .free = free_waiting};
