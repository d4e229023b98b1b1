/* Deletions. A file has one mark, which is taken back as it was given, and so has each named stream. It goes with the last handle's cleanup, a stream with its own last one, or the name at once,
 * by POSIX semantics. The manager hears nothing of a mark. */
#include "filesystem/deletion.h"

#include "core/client.h"
#include "filesystem/disk.h"
#include "filesystem/journal.h"
#include "filesystem/name.h"
#include "filesystem/notice.h"
#include "filesystem/record.h"
#include "filesystem/rename.h"
#include "filesystem/stream.h"
#include "filesystem/tree.h"
#include "filesystem/tunnel.h"
#include "filesystem/version.h"

bool kz_is_empty(const KzName *directory)
{
    for (KzName *one = kz_all_names(); one; one = one->next)
        if (kz_is_below(one, directory->volume, directory->text) && one->file->exists)
            return false;
    return true;
}

static void mark(KzName *name, bool is_marked)
{
    if (name->base)
        name->stream->is_marked = is_marked;
    else
        name->file->marked = is_marked ? name : NULL;
}

static NTSTATUS keep(KzFile *file)
{
    mark(file->name, false);
    file->is_posix = false;
    file->object.DeletePending = FALSE;
    return STATUS_SUCCESS;
}

/* Whether it is to be marked as its handle goes, as a create may have it. */
static NTSTATUS set_on_close(KzFile *file, bool is_set)
{
    file->object.Flags = (file->object.Flags & ~(ULONG)FO_DELETE_ON_CLOSE) | (is_set ? FO_DELETE_ON_CLOSE : 0);
    return STATUS_SUCCESS;
}

NTSTATUS kz_dispose(KzFile *file, ULONG flags)
{
    KzName *name = file->name;
    if (!name || !*name->text)
        return name ? STATUS_CANNOT_DELETE : STATUS_INVALID_PARAMETER;
    if (name->is_gone)
        return STATUS_FILE_DELETED;
    if (!(flags & FILE_DISPOSITION_DELETE))
        return flags & FILE_DISPOSITION_ON_CLOSE ? set_on_close(file, false) : keep(file);
    if (name->file->attributes & FILE_ATTRIBUTE_READONLY && !(flags & FILE_DISPOSITION_IGNORE_READONLY_ATTRIBUTE))
        return STATUS_CANNOT_DELETE;
    if (name->stream->sections.ImageSectionObject)
        return STATUS_CANNOT_DELETE;
    kz_enter_folder(name->volume, name->text);
    if (kz_is_directory(name) && !kz_is_empty(name))
        return STATUS_DIRECTORY_NOT_EMPTY;
    if (flags & FILE_DISPOSITION_ON_CLOSE)
        return set_on_close(file, true);
    mark(name, true);
    file->object.DeletePending = TRUE;
    file->is_posix |= (flags & FILE_DISPOSITION_POSIX_SEMANTICS) != 0;
    return STATUS_SUCCESS;
}

/* ---- Names that go. A file without one goes with its last handle. */
static void take_streams(const KzName *file)
{
    for (KzName *one = kz_all_names(); one; one = one->next)
        one->is_gone |= one->base == file || (file->base && one->stream == file->stream);
}

void kz_take_away(KzName *name)
{
    KzRecord *record = name->file;
    kz_keep_name(name);
    name->is_gone = true;
    take_streams(name);
    if (name->base)
        kz_end_stream(name->stream);
    else if (--record->links == 0 && !record->opens)
        kz_end_record(record);
    kz_let_go_name(name);
}

/* ---- Handles. */
void kz_count_open(KzFile *file)
{
    if (!file->name || file->is_counted)
        return;
    file->is_counted = true;
    file->name->file->opens++;
    file->name->stream->opens++;
}

void kz_count_no_open(KzFile *file)
{
    if (!file->is_counted)
        return;
    file->is_counted = false;
    file->name->file->opens--;
    file->name->stream->opens--;
}

uint8_t kz_delete_name(KzName *name)
{
    kz_uses_all();
    uint8_t status = kz_unlink_in_folder(name->volume->id, name->text);
    if (status != KZS_OK && status != KZS_FILE_NOT_FOUND)
        return status;
    kz_changed(name, kz_is_directory(name) ? FILE_NOTIFY_CHANGE_DIR_NAME : FILE_NOTIFY_CHANGE_FILE_NAME, FILE_ACTION_REMOVED);
    if (!name->base)
        kz_put_in_tunnel(name);
    kz_take_away(name);
    return status;
}

/* What goes with that handle: the file's name, if the file has no other handle, or else a stream that is marked by itself. */
static KzName *goes_with(const KzFile *file)
{
    KzName *name = file->name, *marked = name->file->marked;
    if (marked && !marked->is_gone && (!name->file->opens || (file->is_posix && !name->base)))
        return marked;
    return name->base && name->stream->is_marked && (!name->stream->opens || file->is_posix) ? name : NULL;
}

void kz_end_cleanup(KzFile *file)
{
    if (!file->is_counted)
        return;
    KzRecord *record = file->name->file;
    if (file->object.Flags & FO_DELETE_ON_CLOSE)
        kz_dispose(file, FILE_DISPOSITION_DELETE);
    kz_count_no_open(file);
    if (kz_puts_off_deletion(file))
        return;
    KzName *gone = goes_with(file);
    if (gone) {
        mark(gone, false);
        file->refusal = kz_delete_name(gone);
    } else if (!record->links && !record->opens && record->exists) {
        kz_end_record(record);
    }
    if (!record->opens && record->exists)
        kz_journal_close(file->name);
}
