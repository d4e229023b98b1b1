/* Calls of the base: those that aren't about a file's bytes are answered here, and of the others the names and numbers are kept. */
#include "filesystem/call.h"

#include "core/clock.h"
#include "core/op.h"
#include "filesystem/create.h"
#include "filesystem/disk.h"
#include "filesystem/folder.h"
#include "filesystem/journal.h"
#include "filesystem/name.h"
#include "filesystem/record.h"
#include "filesystem/notice.h"
#include "filesystem/sharing.h"
#include "filesystem/rename.h"
#include "filesystem/stream.h"
#include "filesystem/tag.h"
#include "filesystem/tree.h"
#include "filesystem/tunnel.h"
#include "filesystem/version.h"

bool kz_answers_call(KzOp *op, const KazdrinData *call, NTSTATUS *status)
{
    KzName *name = op->file->name;
    *status = STATUS_SUCCESS;
    if (!name || call->operation == KZE_LIST)
        return false;
    if (call->operation == KZE_CREATE)
        return kz_answers_create(op, call->mode, status);
    if (kz_is_directory(name) && (call->operation == KZE_READ || call->operation == KZE_WRITE || call->operation == KZE_SET_SIZE))
        *status = STATUS_INVALID_DEVICE_REQUEST;
    return kz_is_directory(name);
}

void kz_note_call(KzOp *op, const KazdrinData *call)
{
    KzName *name = op->file->name;
    if (!name)
        return;
    switch (call->operation) {
    case KZE_CREATE:
        kz_note_create(name, call->mode);
        break;
    case KZE_WRITE:
        if (!(op->own.irp_flags & IRP_PAGING_IO)) /* the journal has that where it was written to the pages */
            kz_journal_write(name, call->offset, call->length, name->stream->size);
        kz_note_written(op->file, call->offset, call->length);
        break;
    case KZE_SET_SIZE:
        kz_note_size(op->file, call->offset);
        break;
    }
}

bool kz_list_names_of(PFLT_VOLUME volume, uint8_t *room, size_t size, size_t *length)
{
    *length = 0;
    for (const KzName *one = kz_first_name(); one; one = one->next) {
        size_t letters = strlen(one->text);
        bool is_shown = !one->is_gone && one->volume == volume && !one->base && one->file->exists && !kz_is_hidden(one, NULL) && !one->file->is_directory && !strchr(one->text, '/');
        if (!is_shown)
            continue;
        if (*length + letters + 1 > size)
            return false;
        memcpy(room + *length, one->text, letters);
        room[*length + letters] = '\n';
        *length += letters + 1;
    }
    return true;
}
