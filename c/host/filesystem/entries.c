/* The entries of a directory, by the kit's classes. */
#include "filesystem/entries.h"

#include "core/memory.h"
#include "core/op.h"
#include "lib/letters.h"
#include "filesystem/disk.h"
#include "filesystem/name.h"
#include "filesystem/notice.h"
#include "filesystem/query.h"
#include "filesystem/tag.h"
#include "filesystem/tree.h"
#include "filesystem/version.h"

#include <stdlib.h>

/* Where a class has what it says of a file: all but plain names begin as FILE_DIRECTORY_INFORMATION does. */
typedef struct {
    int class;
    size_t name, length, ea, id, id_size;
} Shape;

#define SHAPE(class, type, ea, id, id_size) {class, offsetof(type, FileName), offsetof(type, FileNameLength), ea, id, id_size}
static const Shape shapes[] = {
    SHAPE(FileDirectoryInformation, FILE_DIRECTORY_INFORMATION, 0, 0, 0),
    SHAPE(FileFullDirectoryInformation, FILE_FULL_DIR_INFORMATION, offsetof(FILE_FULL_DIR_INFORMATION, EaSize), 0, 0),
    SHAPE(FileBothDirectoryInformation, FILE_BOTH_DIR_INFORMATION, offsetof(FILE_BOTH_DIR_INFORMATION, EaSize), 0, 0),
    SHAPE(FileNamesInformation, FILE_NAMES_INFORMATION, 0, 0, 0),
    SHAPE(FileIdBothDirectoryInformation, FILE_ID_BOTH_DIR_INFORMATION, offsetof(FILE_ID_BOTH_DIR_INFORMATION, EaSize), offsetof(FILE_ID_BOTH_DIR_INFORMATION, FileId), 8),
    SHAPE(FileIdFullDirectoryInformation, FILE_ID_FULL_DIR_INFORMATION, offsetof(FILE_ID_FULL_DIR_INFORMATION, EaSize), offsetof(FILE_ID_FULL_DIR_INFORMATION, FileId), 8),
    SHAPE(FileIdExtdDirectoryInformation, FILE_ID_EXTD_DIR_INFORMATION, offsetof(FILE_ID_EXTD_DIR_INFORMATION, EaSize), offsetof(FILE_ID_EXTD_DIR_INFORMATION, FileId), 16),
};

static const Shape *shape_of(int class)
{
    for (size_t at = 0; at < sizeof shapes / sizeof shapes[0]; at++)
        if (shapes[at].class == class)
            return &shapes[at];
    return NULL;
}

/* ---- The scan of a handle: its pattern stays, and so does the last name that it answered. */
typedef struct {
    const char *name;
    const KzRecord *file;
} Entry;

static const char *part_of(const KzName *name, const char *directory)
{
    const char *rest = name->text + (*directory ? strlen(directory) + 1 : 0);
    return strpbrk(rest, "/:") ? NULL : rest;
}

/* As the kit's file systems have them in order: without case, and then by it. */
static int compare(const char *a, const char *b)
{
    int by_letters = kz_compare_texts(a, b, SIZE_MAX);
    return by_letters ? by_letters : strcmp(a, b);
}

static bool fits(const KzFile *file, const char *text)
{
    WCHAR pattern[KZ_PATH], name[KZ_PATH];
    UNICODE_STRING wide = {0, 0, pattern}, own = {0, 0, name};
    wide.Length = wide.MaximumLength = (USHORT)kz_widen(pattern, file->scan.pattern);
    own.Length = own.MaximumLength = (USHORT)kz_widen(name, text);
    return FsRtlIsNameInUnUpcasedExpression(&wide, &own, !file->volume->is_case_sensitive, NULL);
}

/* Those of the directory itself and of the one above come first, but at the root. As in NTFS an expression that fits the one fits the other. */
static bool dots(const KzFile *file, Entry *found)
{
    static const char *const names[] = {".", ".."};
    for (unsigned at = file->scan.dots; *file->name->text && at < 2; at++)
        if (fits(file, ".")) {
            *found = (Entry){names[at], file->name->file};
            return true;
        }
    return false;
}

static bool next_entry(const KzFile *file, Entry *found)
{
    *found = (Entry){NULL, NULL};
    if (dots(file, found))
        return true;
    for (const KzName *one = kz_all_names(); one; one = one->next) {
        if (!kz_is_below(one, file->volume, file->name->text) || !one->file->exists || kz_is_hidden(one, file->transaction))
            continue;
        const char *part = part_of(one, file->name->text);
        bool is_behind = part && (!file->scan.is_begun || compare(part, file->scan.last) > 0);
        if (is_behind && (!found->name || compare(part, found->name) < 0) && fits(file, part))
            *found = (Entry){part, one->file};
    }
    return found->name != NULL;
}

static void keep(char **kept, const char *text)
{
    char *copy = kz_copy_of(text);
    free(*kept);
    *kept = copy;
}

static void pass(KzFile *file, const Entry *entry)
{
    if (strcmp(entry->name, ".") == 0 || strcmp(entry->name, "..") == 0) {
        file->scan.dots = entry->name[1] ? 2 : 1;
        return;
    }
    file->scan.dots = 2;
    file->scan.is_begun = true;
    keep(&file->scan.last, entry->name);
}

static void show(uint8_t *to, const Shape *shape, const Entry *entry, PKTRANSACTION from)
{
    ULONG length = kz_widen((WCHAR *)(to + shape->name), entry->name);
    memcpy(to + shape->length, &length, sizeof length);
    if (shape->class == FileNamesInformation)
        return;
    FILE_NETWORK_OPEN_INFORMATION said;
    kz_show_network(entry->file->streams, from, &said);
    FILE_DIRECTORY_INFORMATION head = {0, 0, said.CreationTime, said.LastAccessTime, said.LastWriteTime, said.ChangeTime, said.EndOfFile, said.AllocationSize, said.FileAttributes, length, {0}};
    memcpy(to, &head, offsetof(FILE_DIRECTORY_INFORMATION, FileName));
    const KzBeside *beside = kz_beside_of(entry->file, from);
    ULONG ea = beside->reparse.length ? ((const REPARSE_DATA_BUFFER *)(const void *)beside->reparse.bytes)->ReparseTag : (ULONG)beside->ea.length;
    if (shape->ea)
        memcpy(to + shape->ea, &ea, sizeof ea);
    if (shape->id)
        memcpy(to + shape->id, &entry->file->id, sizeof entry->file->id);
}

static void begin_scan(KzFile *file, const FLT_PARAMETERS *now, bool is_restart)
{
    PUNICODE_STRING pattern = now->DirectoryControl.QueryDirectory.FileName;
    if (file->scan.pattern && !is_restart)
        return;
    file->scan.is_begun = false;
    file->scan.dots = 0;
    char text[KZ_PATH];
    kz_narrow(text, sizeof text, pattern);
    if (*text || !file->scan.pattern)
        keep(&file->scan.pattern, *text ? text : "*");
    kz_enter_folder(file->volume, file->name->text);
}

/* The least room that a class takes: one entry with a name of one letter, in whole numbers of 8 bytes. */
static size_t least_of(const Shape *shape)
{
    return (shape->name + sizeof(WCHAR) + 7) & ~(size_t)7;
}

static NTSTATUS list(KzOp *op, const FLT_PARAMETERS *now, const Shape *shape)
{
    KzFile *file = op->file;
    uint8_t *buffer = now->DirectoryControl.QueryDirectory.DirectoryBuffer, *before = NULL;
    size_t room = now->DirectoryControl.QueryDirectory.Length, place = 0;
    bool is_first = !file->scan.pattern; /* a restarted scan isn't the first one */
    Entry entry;
    if (room < least_of(shape))
        return STATUS_INFO_LENGTH_MISMATCH;
    begin_scan(file, now, op->opaque->operation_flags & SL_RESTART_SCAN);
    while (next_entry(file, &entry)) {
        size_t size = shape->name + kz_letters(entry.name) * sizeof(WCHAR);
        if (place + size > room) {
            if (!before)
                return STATUS_BUFFER_OVERFLOW;
            break;
        }
        memset(buffer + place, 0, size);
        show(buffer + place, shape, &entry, file->transaction);
        if (before)
            *(ULONG *)before = (ULONG)(buffer + place - before);
        before = buffer + place;
        op->opaque->information = place + size;
        place = (place + size + 7) & ~(size_t)7;
        pass(file, &entry);
        if (op->opaque->operation_flags & SL_RETURN_SINGLE_ENTRY)
            break;
    }
    return before ? STATUS_SUCCESS : is_first ? STATUS_NO_SUCH_FILE : STATUS_NO_MORE_FILES;
}

/* Classes of NTFS's own indexes: no other directory has them. */
static NTSTATUS refuse(int class, size_t room)
{
    size_t least = class == FileObjectIdInformation ? sizeof(FILE_OBJECTID_INFORMATION) : class == FileQuotaInformation ? sizeof(FILE_QUOTA_INFORMATION)
                   : class == FileReparsePointInformation ? sizeof(FILE_REPARSE_POINT_INFORMATION) : 0;
    return room < least ? STATUS_INFO_LENGTH_MISMATCH : STATUS_INVALID_INFO_CLASS;
}

NTSTATUS kz_answer_directory(KzOp *op, const FLT_PARAMETERS *now)
{
    if (!op->file->name || !op->file->is_directory)
        return STATUS_INVALID_PARAMETER;
    if (op->opaque->minor != IRP_MN_QUERY_DIRECTORY)
        return kz_wait_for_change(op);
    int class = (int)now->DirectoryControl.QueryDirectory.FileInformationClass;
    const Shape *shape = shape_of(class);
    return shape ? list(op, now, shape) : refuse(class, now->DirectoryControl.QueryDirectory.Length);
}
