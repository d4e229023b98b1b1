/* Renames and hard links: where they lead to, what stands in their way, and what of the names moves. */
#include "filesystem/rename.h"

#include "core/clock.h"
#include "core/told.h"
#include "lib/letters.h"
#include "filesystem/call.h"
#include "filesystem/deletion.h"
#include "filesystem/disk.h"
#include "filesystem/fileobject.h"
#include "filesystem/folder.h"
#include "filesystem/handle.h"
#include "filesystem/journal.h"
#include "filesystem/name.h"
#include "filesystem/record.h"
#include "filesystem/notice.h"
#include "filesystem/spelling.h"
#include "filesystem/stream.h"
#include "filesystem/tree.h"
#include "filesystem/tunnel.h"
#include "filesystem/volumes.h"
#include "wire/frame.h"

/* ---- Where to. */
/* A name below the volume's device or its letter; NULL: it is one of another volume. */
static const char *below_device(PFLT_VOLUME volume, const char *text)
{
    const char *rest;
    PFLT_VOLUME named = kz_volume_named(text, &rest);
    if (named)
        return named == volume && *rest == '/' ? rest + 1 : NULL;
    return *text == '/' ? text + 1 : text;
}

/* Whether it is a name, which is then as the tree has it. */
static bool is_name(char *text)
{
    KzSpelling read;
    bool is = NT_SUCCESS(kz_read_spelling(text, &read)) && !read.has_end && !read.is_index;
    if (is)
        strcpy(text, read.text);
    return is;
}

static KzFile *root_of(HANDLE root)
{
    KzFile *own = kz_own_file(root);
    return own ? own : kz_file_of_client(root);
}

bool kz_destination(const KzFile *file, HANDLE root, const WCHAR *name, ULONG length, char *text, size_t size)
{
    char said[KZ_WHOLE_PATH];
    UNICODE_STRING given = {(USHORT)length, (USHORT)length, (PWSTR)name};
    const char *own = kz_name_now(file), *slash = strrchr(own, '/'), *colon = strchr(slash ? slash : own, ':');
    if (!length || kz_narrow(said, sizeof said, &given) >= sizeof said)
        return false;
    int put;
    if (root) {
        KzFile *directory = root_of(root);
        if (!directory || !directory->name || directory->volume != file->volume)
            return false;
        put = snprintf(text, size, "%s%s%s", directory->name->text, *directory->name->text ? "/" : "", said);
    } else if (*said == ':') { /* another stream of the same file */
        put = snprintf(text, size, "%.*s%s", (int)(colon ? colon - own : (long)strlen(own)), own, said);
    } else if (!strchr(said, '/')) { /* a simple name: in the same directory */
        put = snprintf(text, size, "%.*s%s", slash ? (int)(slash - own + 1) : 0, own, said);
    } else {
        const char *rest = below_device(file->volume, said);
        put = rest ? snprintf(text, size, "%s", rest) : -1;
    }
    if (put > 0 && (size_t)put < size)
        kz_tell_long_path(text, "a rename or a link");
    return put > 0 && (size_t)put < size && is_name(text);
}

bool kz_name_in_target(const KzFile *folder, char *text, size_t size)
{
    char said[KZ_WHOLE_PATH];
    if (!folder || !folder->name || kz_narrow(said, sizeof said, &folder->object.FileName) >= sizeof said)
        return false;
    const char *slash = strrchr(said, '/'), *above = folder->name->text;
    int put = snprintf(text, size, "%s%s%s", above, *above ? "/" : "", slash ? slash + 1 : said);
    return put > 0 && (size_t)put < size && is_name(text);
}

/* ---- What stands in the way: the refusals in the order of the kit's file systems. */
static bool has_open_below(PFLT_VOLUME volume, const char *text)
{
    for (const KzName *one = kz_all_names(); one; one = one->next)
        if (kz_is_below(one, volume, text) && one->file->opens)
            return true;
    return false;
}

static NTSTATUS source_status(const KzName *from, bool is_link)
{
    if (from->is_gone || from->file->marked || from->stream->is_marked)
        return STATUS_ACCESS_DENIED;
    if (!*from->text)
        return STATUS_INVALID_PARAMETER;
    if (is_link && from->base)
        return STATUS_INVALID_PARAMETER;
    if (!is_link && !from->base && from->file->opens > from->file->streams->opens) /* a named stream is open */
        return STATUS_ACCESS_DENIED;
    if (is_link && kz_is_directory(from))
        return STATUS_FILE_IS_A_DIRECTORY;
    return !is_link && kz_is_directory(from) && has_open_below(from->volume, from->text) ? STATUS_ACCESS_DENIED : STATUS_SUCCESS;
}

static bool is_over_memory(PFLT_VOLUME volume)
{
    return !kz_is_in_folder(volume->id);
}

static NTSTATUS target_status(const KzName *from, KzName *to, ULONG flags, bool is_link)
{
    bool is_posix = flags & FILE_RENAME_POSIX_SEMANTICS && !is_link;
    if (!kz_is_there(to) || (to == from && !is_link))
        return STATUS_SUCCESS;
    if (!(flags & FILE_RENAME_REPLACE_IF_EXISTS))
        return STATUS_OBJECT_NAME_COLLISION;
    if (kz_is_directory(to) || to->file->attributes & FILE_ATTRIBUTE_READONLY || to->stream->sections.ImageSectionObject)
        return STATUS_ACCESS_DENIED;
    if (to->stream == from->stream)
        return STATUS_SUCCESS;
    if (to->file->marked || to->stream->is_marked)
        return STATUS_DELETE_PENDING;
    return is_posix || !(to->base ? to->stream->opens : to->file->opens) ? STATUS_SUCCESS : STATUS_ACCESS_DENIED;
}

/* ---- What moves. */
static bool has_file_above(PFLT_VOLUME volume, const char *text)
{
    char above[KZ_PATH];
    bool has_file = false;
    for (const char *slash = is_over_memory(volume) ? strchr(text, '/') : NULL; slash && !has_file; slash = strchr(slash + 1, '/')) {
        snprintf(above, sizeof above, "%.*s", (int)(slash - text), text);
        KzName *name = kz_take_name(volume, above);
        has_file = name && kz_is_there(name) && !kz_is_directory(name);
        kz_let_go_name(name);
    }
    return has_file;
}

/* Whether a folder of the machine has no such folder. What is neither a file nor a folder it refuses itself. */
static bool is_lacking(PFLT_VOLUME volume, const char *above)
{
    KzFound found;
    kz_look_in_folder(volume->id, above, &found);
    return !found.is_other && !(found.is_there && found.is_directory);
}

/* Where folders are made a folder of the machine is asked as the name is made in it. */
NTSTATUS kz_check_above(PFLT_VOLUME volume, const char *text, bool makes)
{
    char above[KZ_PATH];
    const char *slash = strrchr(text, '/');
    if (!slash)
        return STATUS_SUCCESS;
    snprintf(above, sizeof above, "%.*s", (int)(slash - text), text);
    if (!is_over_memory(volume))
        return !volume->makes_folders && is_lacking(volume, above) ? STATUS_OBJECT_PATH_NOT_FOUND : STATUS_SUCCESS;
    const KzName *folder = kz_find_name(volume, above);
    if (folder && folder->file->exists && folder->file->is_directory)
        return folder->file->marked ? STATUS_DELETE_PENDING : STATUS_SUCCESS;
    return makes && volume->makes_folders && !has_file_above(volume, text) ? STATUS_SUCCESS : STATUS_OBJECT_PATH_NOT_FOUND;
}

void kz_make_above(PFLT_VOLUME volume, const char *text)
{
    char above[KZ_PATH];
    for (const char *slash = is_over_memory(volume) ? strchr(text, '/') : NULL; slash; slash = strchr(slash + 1, '/')) {
        snprintf(above, sizeof above, "%.*s", (int)(slash - text), text);
        KzName *name = kz_take_name(volume, above);
        if (name && !kz_is_there(name))
            kz_begin_record(name->file, true);
        kz_let_go_name(name);
    }
}

/* The names below a folder, and those with a file's streams: first all are marked, since one that was moved may be below the old name too. */
static void move_with(PFLT_VOLUME volume, const char *from, const char *to)
{
    char text[2 * KZ_PATH];
    size_t length = strlen(from);
    for (KzName *one = kz_all_names(); one; one = one->next)
        one->is_to_move = !one->is_gone && one->volume == volume && kz_is_same_name(volume, one->text, from, length) && (one->text[length] == ':' || one->text[length] == '/');
    for (KzName *one = kz_all_names(), *next; one; one = next) {
        next = one->next;
        if (!one->is_to_move)
            continue;
        one->is_to_move = false;
        if (snprintf(text, sizeof text, "%s%s", to, one->text + length) >= KZ_PATH)
            continue;
        kz_move_name(one, text);
        next = kz_all_names();
    }
}

static NTSTATUS link_to(KzName *from, const char *text)
{
    from->file->links++;
    kz_changed(kz_add_name(text, from->stream), FILE_NOTIFY_CHANGE_FILE_NAME, FILE_ACTION_ADDED);
    return STATUS_SUCCESS;
}

/* As the kit's file systems tell it: what comes to another folder is gone from the one, and new in the other. */
static bool is_in_same_folder(const char *old, const char *fresh)
{
    const char *slash = strrchr(old, '/'), *other = strrchr(fresh, '/');
    size_t length = slash ? (size_t)(slash - old) : 0;
    return !slash == !other && (!slash || (length == (size_t)(other - fresh) && memcmp(old, fresh, length) == 0));
}

void kz_move_to(KzName *from, const char *text)
{
    char old[KZ_PATH];
    ULONG filter = kz_is_directory(from) ? FILE_NOTIFY_CHANGE_DIR_NAME : FILE_NOTIFY_CHANGE_FILE_NAME;
    bool stays = is_in_same_folder(from->text, text);
    strcpy(old, from->text);
    kz_journal(from, USN_REASON_RENAME_OLD_NAME);
    kz_notify(from, filter, stays ? FILE_ACTION_RENAMED_OLD_NAME : FILE_ACTION_REMOVED);
    kz_put_in_tunnel(from);
    kz_move_name(from, text);
    move_with(from->volume, old, text);
    kz_journal(from, USN_REASON_RENAME_NEW_NAME);
    kz_notify(from, filter, stays ? FILE_ACTION_RENAMED_NEW_NAME : FILE_ACTION_ADDED);
}

static NTSTATUS move_file(KzName *from, const char *text)
{
    kz_move_to(from, text);
    return STATUS_SUCCESS;
}

/* A stream is called otherwise, by each of its names. */
static NTSTATUS name_stream(KzName *from, const char *text)
{
    KzStream *stream = from->stream;
    char fresh[KZ_PATH], whole[2 * KZ_PATH];
    snprintf(fresh, sizeof fresh, "%s", text + strlen(from->base->text) + 1);
    kz_notify(from, FILE_NOTIFY_CHANGE_FILE_NAME, FILE_ACTION_RENAMED_OLD_NAME);
    kz_name_stream(stream, fresh);
    for (KzName *one = kz_all_names(), *next; one; one = next) {
        next = one->next;
        if (one->stream != stream || one->is_gone || snprintf(whole, sizeof whole, "%s:%s", one->base->text, fresh) >= KZ_PATH || strcmp(one->text, whole) == 0)
            continue;
        kz_move_name(one, whole);
        next = kz_all_names();
    }
    kz_journal(from, USN_REASON_STREAM_CHANGE);
    kz_notify(from, FILE_NOTIFY_CHANGE_FILE_NAME, FILE_ACTION_RENAMED_NEW_NAME);
    return STATUS_SUCCESS;
}

/* In a folder of the machine: what has the new name keeps its bytes there as long as handles read them. */
static NTSTATUS rename_below(const KzName *from, const KzName *to, const char *text, bool is_link)
{
    bool is_held = to != from && kz_exists(to) && to->file->opens;
    if (is_held && !kz_hold_in_folder(to))
        return STATUS_INSUFFICIENT_RESOURCES;
    NTSTATUS status = kz_rename_in_folder(from->volume->id, from->text, text, is_link, kz_exists(to));
    if (is_held && !NT_SUCCESS(status))
        kz_forget_orphan(to->stream);
    return status;
}

/* The new name is nobody's, or that of a file that goes for it. */
static NTSTATUS put_in_place(KzName *from, KzName *to, const char *text, bool is_link)
{
    NTSTATUS status = rename_below(from, to, text, is_link);
    if (!NT_SUCCESS(status))
        return status;
    kz_make_above(from->volume, text);
    if (to != from) {
        if (kz_exists(to) && to->stream != from->stream)
            kz_changed(to, FILE_NOTIFY_CHANGE_FILE_NAME, FILE_ACTION_REMOVED);
        kz_take_away(to);
    }
    from->file->changed = kz_time();
    return is_link ? link_to(from, text) : from->base ? name_stream(from, text) : move_file(from, text);
}

NTSTATUS kz_rename(KzFile *file, const char *text, bool is_link, ULONG flags)
{
    KzName *from = file->name;
    NTSTATUS status = from ? source_status(from, is_link) : STATUS_INVALID_PARAMETER;
    if (!NT_SUCCESS(status))
        return status;
    KzName *to = *text ? kz_take_name(from->volume, text) : NULL;
    if (!to)
        return STATUS_OBJECT_NAME_INVALID;
    if (!from->base != !to->base || (from->base && from->file != to->file))
        status = STATUS_OBJECT_NAME_INVALID; /* a stream stays with its file */
    else if (kz_is_directory(from) && kz_is_below(to, from->volume, from->text))
        status = STATUS_ACCESS_DENIED;
    else
        status = kz_check_above(from->volume, text, true);
    if (NT_SUCCESS(status))
        status = target_status(from, to, flags, is_link);
    bool is_as_it_was = to == from && (is_link || strcmp(from->text, text) == 0);
    if (NT_SUCCESS(status) && !is_as_it_was)
        status = put_in_place(from, to, text, is_link);
    if (NT_SUCCESS(status) && file->transaction)
        kz_tell(KZM_TRANSACTION, "a rename in a transaction", "others see the new name before it ends");
    kz_let_go_name(to);
    return status;
}
