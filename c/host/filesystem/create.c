/* What the file system answers a create: the folders above its name, what is marked or has a tag, what is there against its kind and its disposition, what a file's attributes allow, and sharing, in
 * this order, which is NTFS's. */
#include "filesystem/create.h"

#include "core/module.h"
#include "core/op.h"
#include "filesystem/disk.h"
#include "filesystem/folder.h"
#include "filesystem/journal.h"
#include "filesystem/name.h"
#include "filesystem/notice.h"
#include "filesystem/oplocks.h"
#include "filesystem/record.h"
#include "filesystem/rename.h"
#include "filesystem/sharing.h"
#include "filesystem/spelling.h"
#include "filesystem/stream.h"
#include "filesystem/tag.h"
#include "filesystem/tunnel.h"
#include "filesystem/version.h"

typedef enum { IS_NOTHING, IS_BYTES, IS_FOLDER } There;

/* By what is there and the disposition; STATUS_SUCCESS: it is opened, made, emptied or replaced. */
static const NTSTATUS answers[][FILE_MAXIMUM_DISPOSITION + 1] = {
    [IS_NOTHING] = {[FILE_OPEN] = STATUS_OBJECT_NAME_NOT_FOUND, [FILE_OVERWRITE] = STATUS_OBJECT_NAME_NOT_FOUND},
    [IS_BYTES] = {[FILE_CREATE] = STATUS_OBJECT_NAME_COLLISION},
    [IS_FOLDER] = {[FILE_SUPERSEDE] = STATUS_OBJECT_NAME_COLLISION,
                [FILE_CREATE] = STATUS_OBJECT_NAME_COLLISION,
                [FILE_OVERWRITE] = STATUS_OBJECT_NAME_COLLISION,
                [FILE_OVERWRITE_IF] = STATUS_OBJECT_NAME_COLLISION},
};

static ULONG disposition_of(const KzCreate *create)
{
    return create->options >> 24;
}

/* One whose name was taken away while it was on its way down has the old file's key with the manager, which can't be changed any more: it is refused, though the kit would have it open the file that
 * has the name now. */
static bool answers_overtaken(KzName *name, uint8_t mode, NTSTATUS *status)
{
    KzName *other = kz_find_name(name->volume, name->text);
    bool is_other = other && kz_exists(other);
    if (!other && !kz_exists(name) && !name->file->opens) { /* nobody has the name: it is as it was */
        name->is_gone = false;
        name->file->links = 1;
        return false;
    }
    *status = mode == 1 && is_other ? STATUS_OBJECT_NAME_COLLISION : mode == 0 && !is_other ? STATUS_OBJECT_NAME_NOT_FOUND : STATUS_DELETE_PENDING;
    return true;
}

/* ---- What it says that it opens. A name that is taken is told before a wrong kind of a file. */
static NTSTATUS check_kind(const KzCreate *create, There there)
{
    if (there == IS_FOLDER && create->options & FILE_NON_DIRECTORY_FILE)
        return STATUS_FILE_IS_A_DIRECTORY;
    if (there == IS_BYTES && create->options & FILE_DIRECTORY_FILE && disposition_of(create) != FILE_CREATE)
        return STATUS_NOT_A_DIRECTORY;
    return STATUS_SUCCESS;
}

/* ---- What a file's attributes allow, or those that a new one is to have. */
static NTSTATUS check_new(const KzName *name, const KzCreate *create)
{
    if (create->options & FILE_DIRECTORY_FILE && create->attributes & FILE_ATTRIBUTE_TEMPORARY)
        return STATUS_INVALID_PARAMETER;
    if (create->options & FILE_DELETE_ON_CLOSE && create->attributes & FILE_ATTRIBUTE_READONLY)
        return STATUS_CANNOT_DELETE;
    bool is_refused = name->base && name->file->exists && name->file->attributes & FILE_ATTRIBUTE_READONLY && create->access & (FILE_WRITE_DATA | FILE_APPEND_DATA);
    return is_refused ? STATUS_ACCESS_DENIED : STATUS_SUCCESS;
}

static NTSTATUS check_read_only(const KzName *name, const KzCreate *create)
{
    bool is_overwritten = kz_is_emptied(create) && disposition_of(create) != FILE_SUPERSEDE;
    if (!(name->file->attributes & FILE_ATTRIBUTE_READONLY))
        return STATUS_SUCCESS;
    if (create->options & FILE_DELETE_ON_CLOSE)
        return STATUS_CANNOT_DELETE;
    return !name->file->is_directory && (is_overwritten || create->access & (FILE_WRITE_DATA | FILE_APPEND_DATA)) ? STATUS_ACCESS_DENIED : STATUS_SUCCESS;
}

/* What a process executes isn't written, and doesn't go. */
static NTSTATUS check_image(const KzName *name, const KzCreate *create)
{
    if (!name->stream->sections.ImageSectionObject)
        return STATUS_SUCCESS;
    if (create->options & FILE_DELETE_ON_CLOSE)
        return STATUS_CANNOT_DELETE;
    return create->access & FILE_WRITE_DATA ? STATUS_SHARING_VIOLATION : STATUS_SUCCESS;
}

/* What a file that is emptied or replaced keeps hidden, or of the system, has to be asked for so. */
static NTSTATUS check_there(KzOp *op, const KzName *name)
{
    const KzCreate *create = &op->create;
    NTSTATUS status = check_read_only(name, create);
    if (!NT_SUCCESS(status))
        return status;
    if (!*name->text && create->options & FILE_DELETE_ON_CLOSE)
        return STATUS_CANNOT_DELETE;
    if (kz_is_emptied(create) && name->file->attributes & ~create->attributes & (FILE_ATTRIBUTE_HIDDEN | FILE_ATTRIBUTE_SYSTEM))
        return STATUS_ACCESS_DENIED;
    status = check_image(name, create);
    if (!NT_SUCCESS(status))
        return status;
    if (kz_is_emptied(create) && kz_is_mapped(op, name->stream, 0))
        return STATUS_USER_MAPPED_FILE;
    return kz_open_beside(op);
}

static NTSTATUS check(KzOp *op, uint8_t mode, There there)
{
    KzName *name = op->file->name;
    bool is_made = there == IS_NOTHING && NT_SUCCESS(answers[IS_NOTHING][disposition_of(&op->create)]);
    if (op->volume->locker)
        return STATUS_ACCESS_DENIED;
    NTSTATUS status = kz_check_version(op->file, &op->create, is_made);
    if (!NT_SUCCESS(status))
        return status;
    if (kz_is_marked_for(name, op->file->transaction))
        return STATUS_DELETE_PENDING;
    if (kz_meets_tag(op, mode))
        return STATUS_REPARSE;
    if (op->create.is_target && there != IS_FOLDER) /* what a rename leads to lies in no folder */
        return STATUS_OBJECT_PATH_NOT_FOUND;
    status = kz_check_above(name->volume, name->text, NT_SUCCESS(answers[IS_NOTHING][disposition_of(&op->create)]));
    if (NT_SUCCESS(status))
        status = check_kind(&op->create, there);
    if (NT_SUCCESS(status))
        status = answers[there][disposition_of(&op->create)];
    if (NT_SUCCESS(status) && !op->create.access && !(op->own.is_own && !op->own.is_user)) /* nothing is granted to a user who asks for nothing */
        status = STATUS_ACCESS_DENIED;
    if (NT_SUCCESS(status))
        status = there == IS_NOTHING ? check_new(name, &op->create) : check_there(op, name);
    return status;
}

static NTSTATUS make_directory(KzName *name)
{
    NTSTATUS status = kz_make_in_folder(name->volume->id, name->text);
    if (!NT_SUCCESS(status))
        return status;
    kz_make_above(name->volume, name->text);
    kz_begin_record(name->file, true);
    kz_take_from_tunnel(name);
    kz_changed(name, FILE_NOTIFY_CHANGE_DIR_NAME, FILE_ACTION_ADDED);
    return STATUS_SUCCESS;
}

/* What is there below the folder, and is no file of its own, the folder refuses itself. */
static bool is_foreign(const KzName *name)
{
    KzFound found;
    return kz_look_in_folder(name->volume->id, name->text, &found) && found.is_other;
}

bool kz_answers_create(KzOp *op, uint8_t mode, NTSTATUS *status)
{
    KzName *name = op->file->name;
    if (name->is_gone && answers_overtaken(name, mode, status))
        return true;
    if (is_foreign(name))
        return false;
    There there = !kz_is_there(name) || kz_is_hidden(name, op->file->transaction) ? IS_NOTHING : kz_is_directory(name) ? IS_FOLDER : IS_BYTES;
    *status = check(op, mode, there);
    if (*status != STATUS_SUCCESS)
        return true;
    if (there == IS_NOTHING && op->create.options & FILE_DIRECTORY_FILE) {
        *status = make_directory(name);
        return true;
    }
    return there == IS_FOLDER;
}

/* ---- A file that whatever keeps the bytes has made. */
static void make_file(KzName *name)
{
    kz_make_above(name->volume, name->text);
    kz_begin_record(name->file, false);
    kz_take_from_tunnel(name);
    kz_changed(name, FILE_NOTIFY_CHANGE_FILE_NAME, FILE_ACTION_ADDED);
}

/* A stream makes its file, where that isn't there. */
void kz_note_create(KzName *name, uint8_t mode)
{
    KzFound found;
    if (kz_exists(name) || mode == 0)
        return;
    if (kz_look_in_folder(name->volume->id, name->text, &found) && (!found.is_there || found.is_directory))
        return; /* the folder refused it */
    if (!name->file->exists)
        make_file(name->base ? name->base : name);
    if (!name->base)
        return;
    kz_begin_stream(name->stream);
    kz_changed(name, FILE_NOTIFY_CHANGE_FILE_NAME, FILE_ACTION_ADDED);
}

bool kz_opens_directory(const KzCreate *create, PFLT_VOLUME volume, const char *path)
{
    if (create->options & (FILE_DIRECTORY_FILE | FILE_NON_DIRECTORY_FILE))
        return create->options & FILE_DIRECTORY_FILE;
    KzSpelling read;
    if (!NT_SUCCESS(kz_read_spelling(path, &read)) || read.is_data)
        return false;
    KzName *name = kz_take_name(volume, path);
    bool is_directory = name && kz_is_there(name) && kz_is_directory(name);
    kz_let_go_name(name);
    return is_directory;
}
