/* Directories of a program, and what it asks of a file by its name: each call opens it, asks, and closes it, as in Windows. */
#include "user/directory.h"

#include "core/client.h"
#include "core/memory.h"
#include "lib/letters.h"
#include "manager/below.h"
#include "user/error.h"
#include "user/file.h"
#include "user/object.h"
#include "user/path.h"

#include <stdlib.h>

enum { MOST = 260, ROOM = 4096 };
#define OPENED (FILE_SYNCHRONOUS_IO_NONALERT | FILE_OPEN_FOR_BACKUP_INTENT)

static void path_of(char *room, const char *name)
{
    kz_letters_of(room, KZ_PROGRAM_PATH, name);
    kz_plain_path(room);
}

static void path_of_wide(char *room, const WCHAR *name)
{
    kz_letters_of_wide(room, KZ_PROGRAM_PATH, name);
    kz_plain_path(room);
}

static KzCreate opening(ACCESS_MASK access, ULONG disposition, ULONG options)
{
    return (KzCreate){.access = access | SYNCHRONIZE, .options = disposition << 24 | options | OPENED, .attributes = FILE_ATTRIBUTE_NORMAL, .share = FILE_SHARE_VALID_FLAGS};
}

/* ---- Opened, asked, closed. */
static uint32_t ask_by_path(const char *path, const KzCreate *create, const KzAsked *asked, void *to)
{
    KzFile *file;
    KzAnswer answer;
    uint32_t error = kz_open_path(path, create, &file);
    if (error || !asked) {
        if (!error)
            kz_close_opened(file);
        return error;
    }
    NTSTATUS status = kz_ask_opened(file, asked, &answer);
    if (to && NT_SUCCESS(status))
        memcpy(to, kz_me->room, asked->room);
    kz_close_opened(file);
    return NT_SUCCESS(status) ? 0 : kz_win32_of(status);
}

static KzAsked set(FILE_INFORMATION_CLASS class, const void *said, size_t size)
{
    return (KzAsked){.major = IRP_MJ_SET_INFORMATION, .code = (ULONG)class, .input = said, .input_size = size, .irp_flags = IRP_BUFFERED_IO};
}

static uint32_t make_directory(const char *path)
{
    const KzCreate create = opening(FILE_LIST_DIRECTORY, FILE_CREATE, FILE_DIRECTORY_FILE);
    return ask_by_path(path, &create, NULL, NULL);
}

static uint32_t remove_named(const char *path, ULONG kind, PKTRANSACTION transaction)
{
    const FILE_DISPOSITION_INFORMATION gone = {TRUE};
    KzCreate create = opening(DELETE, FILE_OPEN, kind | FILE_OPEN_REPARSE_POINT);
    create.transaction = transaction;
    const KzAsked asked = set(FileDispositionInformation, &gone, sizeof gone);
    return ask_by_path(path, &create, &asked, NULL);
}

static uint32_t query(const char *path, FILE_NETWORK_OPEN_INFORMATION *said)
{
    const KzCreate create = opening(FILE_READ_ATTRIBUTES, FILE_OPEN, FILE_OPEN_REPARSE_POINT);
    const KzAsked asked = {.major = IRP_MJ_QUERY_INFORMATION, .code = FileNetworkOpenInformation, .room = sizeof *said, .irp_flags = IRP_BUFFERED_IO};
    return ask_by_path(path, &create, &asked, said);
}

static uint32_t set_attributes(const char *path, uint32_t attributes)
{
    const FILE_BASIC_INFORMATION said = {.FileAttributes = attributes ? attributes : FILE_ATTRIBUTE_NORMAL};
    const KzCreate create = opening(FILE_WRITE_ATTRIBUTES, FILE_OPEN, FILE_OPEN_REPARSE_POINT);
    const KzAsked asked = set(FileBasicInformation, &said, sizeof said);
    return ask_by_path(path, &create, &asked, NULL);
}

/* To a whole name, on the same volume. */
static uint32_t move(const char *from, const char *to, uint32_t flags, PKTRANSACTION transaction)
{
    uint8_t bytes[sizeof(FILE_RENAME_INFORMATION) + (KZ_PROGRAM_PATH + 8) * sizeof(WCHAR)] = {0};
    PFILE_RENAME_INFORMATION said = (PFILE_RENAME_INFORMATION)bytes;
    char whole[KZ_PROGRAM_PATH + 8];
    if (from[0] != to[0] || from[1] != to[1])
        return 17; /* ERROR_NOT_SAME_DEVICE */
    snprintf(whole, sizeof whole, "/?" "?/%s", to);
    said->ReplaceIfExists = flags & 1; /* MOVEFILE_REPLACE_EXISTING */
    said->FileNameLength = (ULONG)kz_widen(said->FileName, whole);
    KzCreate create = opening(DELETE | FILE_READ_ATTRIBUTES, FILE_OPEN, FILE_OPEN_REPARSE_POINT);
    create.transaction = transaction;
    const KzAsked asked = set(FileRenameInformation, said, sizeof *said + said->FileNameLength);
    return ask_by_path(from, &create, &asked, NULL);
}

/* ---- As Windows gives them. */
typedef struct {
    uint32_t attributes, created[2], accessed[2], written[2], size_high, size_low;
} FileData;

static void put_time(uint32_t *to, LARGE_INTEGER time)
{
    to[0] = (uint32_t)time.QuadPart;
    to[1] = (uint32_t)((uint64_t)time.QuadPart >> 32);
}

static void put_data(FileData *to, const FILE_NETWORK_OPEN_INFORMATION *from)
{
    to->attributes = from->FileAttributes;
    put_time(to->created, from->CreationTime);
    put_time(to->accessed, from->LastAccessTime);
    put_time(to->written, from->LastWriteTime);
    to->size_high = (uint32_t)((uint64_t)from->EndOfFile.QuadPart >> 32);
    to->size_low = (uint32_t)from->EndOfFile.QuadPart;
}

/* A call by a path, in both spellings: its error is set, and it gives whether there is none. */
#define BY_PATH(name, letters, convert, parameters, ...)                                                                                                         \
    int name parameters;                                                                                                                                         \
    int name parameters                                                                                                                                          \
    {                                                                                                                                                            \
        uint32_t error;                                                                                                                                          \
        {                                                                                                                                                        \
            KZ_CALL();                                                                                                                                           \
            char path[KZ_PROGRAM_PATH];                                                                                                                          \
            convert(path, file_name);                                                                                                                            \
            error = __VA_ARGS__;                                                                                                                                 \
            if (error)                                                                                                                                           \
                kz_failed(error);                                                                                                                                \
        }                                                                                                                                                        \
        kz_go_on_or_end();                                                                                                                                       \
        return !error;                                                                                                                                           \
    }

static uint32_t query_data(const char *path, FileData *to)
{
    FILE_NETWORK_OPEN_INFORMATION said;
    uint32_t error = query(path, &said);
    if (!error)
        put_data(to, &said);
    return error;
}

static uint32_t move_to(const char *path, const char *to, uint32_t flags, PKTRANSACTION transaction)
{
    char whole[KZ_PROGRAM_PATH];
    path_of(whole, to);
    return move(path, whole, flags, transaction);
}

static uint32_t move_to_wide(const char *path, const WCHAR *to, uint32_t flags, PKTRANSACTION transaction)
{
    char whole[KZ_PROGRAM_PATH];
    path_of_wide(whole, to);
    return move(path, whole, flags, transaction);
}

/* Of a transaction's handle. */
static bool find_transaction(const void *handle, PKTRANSACTION *in)
{
    const KzObject *object = kz_object(handle, KZU_TRANSACTION);
    *in = object ? object->transaction : NULL;
    return object;
}

#define ASKED_IN(handle, asked)                                                 \
    ({                                                                          \
        PKTRANSACTION in;                                                       \
        find_transaction(handle, &in) ? (asked) : 6 /* ERROR_INVALID_HANDLE */; \
    })

BY_PATH(CreateDirectoryA, char, path_of, (const char *file_name, void *attributes), ((void)attributes, make_directory(path)))
BY_PATH(CreateDirectoryW, WCHAR, path_of_wide, (const WCHAR *file_name, void *attributes), ((void)attributes, make_directory(path)))
BY_PATH(RemoveDirectoryA, char, path_of, (const char *file_name), remove_named(path, FILE_DIRECTORY_FILE, NULL))
BY_PATH(RemoveDirectoryW, WCHAR, path_of_wide, (const WCHAR *file_name), remove_named(path, FILE_DIRECTORY_FILE, NULL))
BY_PATH(DeleteFileA, char, path_of, (const char *file_name), remove_named(path, FILE_NON_DIRECTORY_FILE, NULL))
BY_PATH(DeleteFileW, WCHAR, path_of_wide, (const WCHAR *file_name), remove_named(path, FILE_NON_DIRECTORY_FILE, NULL))
BY_PATH(SetFileAttributesA, char, path_of, (const char *file_name, uint32_t attributes), set_attributes(path, attributes))
BY_PATH(SetFileAttributesW, WCHAR, path_of_wide, (const WCHAR *file_name, uint32_t attributes), set_attributes(path, attributes))
BY_PATH(MoveFileExA, char, path_of, (const char *file_name, const char *to, uint32_t flags), move_to(path, to, flags, NULL))
BY_PATH(MoveFileExW, WCHAR, path_of_wide, (const WCHAR *file_name, const WCHAR *to, uint32_t flags), move_to_wide(path, to, flags, NULL))
BY_PATH(DeleteFileTransactedA, char, path_of, (const char *file_name, void *transaction), ASKED_IN(transaction, remove_named(path, FILE_NON_DIRECTORY_FILE, in)))
BY_PATH(DeleteFileTransactedW, WCHAR, path_of_wide, (const WCHAR *file_name, void *transaction), ASKED_IN(transaction, remove_named(path, FILE_NON_DIRECTORY_FILE, in)))
BY_PATH(MoveFileTransactedA, char, path_of, (const char *file_name, const char *to, const void *progress, void *data, uint32_t flags, void *transaction), ((void)progress, (void)data, ASKED_IN(transaction, move_to(path, to, flags, in))))
BY_PATH(MoveFileTransactedW, WCHAR, path_of_wide, (const WCHAR *file_name, const WCHAR *to, const void *progress, void *data, uint32_t flags, void *transaction), ((void)progress, (void)data, ASKED_IN(transaction, move_to_wide(path, to, flags, in))))
BY_PATH(GetFileAttributesExA, char, path_of, (const char *file_name, int level, FileData *to), level ? 87 : query_data(path, to))
BY_PATH(GetFileAttributesExW, WCHAR, path_of_wide, (const WCHAR *file_name, int level, FileData *to), level ? 87 : query_data(path, to))

int MoveFileA(const char *from, const char *to);
int MoveFileA(const char *from, const char *to)
{
    return MoveFileExA(from, to, 2); /* MOVEFILE_COPY_ALLOWED */
}

int MoveFileW(const WCHAR *from, const WCHAR *to);
int MoveFileW(const WCHAR *from, const WCHAR *to)
{
    return MoveFileExW(from, to, 2);
}

uint32_t GetFileAttributesA(const char *name);
uint32_t GetFileAttributesA(const char *name)
{
    FileData data;
    return GetFileAttributesExA(name, 0, &data) ? data.attributes : UINT32_MAX;
}

uint32_t GetFileAttributesW(const WCHAR *name);
uint32_t GetFileAttributesW(const WCHAR *name)
{
    FileData data;
    return GetFileAttributesExW(name, 0, &data) ? data.attributes : UINT32_MAX;
}

/* ---- Searches: the first entry is asked for alone, and then as many as a buffer holds. */
typedef struct KzSearch {
    KzFile *file;
    char pattern[KZ_PROGRAM_PATH];
    uint8_t bytes[ROOM];
    size_t place, length; /* the next entry, and how many bytes there are; none is left at the end */
} KzSearch;

typedef struct {
    FileData head;
    uint32_t tag, reserved;
} FoundData;

void kz_free_search(KzObject *object)
{
    kz_close_opened(object->search->file);
    free(object->search);
}

static uint32_t ask_entries(KzSearch *search, bool is_first)
{
    KzAnswer answer;
    KzAsked asked = {.major = IRP_MJ_DIRECTORY_CONTROL, .minor = IRP_MN_QUERY_DIRECTORY, .code = FileBothDirectoryInformation, .room = ROOM, .pattern = search->pattern};
    asked.flags = is_first ? SL_RESTART_SCAN | SL_RETURN_SINGLE_ENTRY : 0;
    NTSTATUS status = kz_ask_opened(search->file, &asked, &answer);
    if (!NT_SUCCESS(status))
        return kz_win32_of(status);
    search->place = 0;
    search->length = answer.length < ROOM ? answer.length : ROOM;
    memcpy(search->bytes, kz_me->room, search->length);
    return 0;
}

/* The next entry, or NULL and the error. */
static const FILE_BOTH_DIR_INFORMATION *next_entry(KzSearch *search, bool is_first, uint32_t *error)
{
    *error = search->place < search->length ? 0 : ask_entries(search, is_first);
    if (*error)
        return NULL;
    const FILE_BOTH_DIR_INFORMATION *entry = (const void *)(search->bytes + search->place);
    search->place = entry->NextEntryOffset ? search->place + entry->NextEntryOffset : search->length;
    return entry;
}

static void put_entry(FoundData *to, const FILE_BOTH_DIR_INFORMATION *entry)
{
    const FILE_NETWORK_OPEN_INFORMATION said = {.CreationTime = entry->CreationTime,
                                                .LastAccessTime = entry->LastAccessTime,
                                                .LastWriteTime = entry->LastWriteTime,
                                                .EndOfFile = entry->EndOfFile,
                                                .FileAttributes = entry->FileAttributes};
    put_data(&to->head, &said);
    to->tag = entry->FileAttributes & FILE_ATTRIBUTE_REPARSE_POINT ? entry->EaSize : 0;
    to->reserved = 0;
}

static void put_entry_narrow(void *to, const FILE_BOTH_DIR_INFORMATION *entry)
{
    char *name = (char *)to + sizeof(FoundData);
    memset(name, 0, MOST + 14);
    put_entry(to, entry);
    for (size_t at = 0; at < entry->FileNameLength / sizeof(WCHAR) && at < MOST - 1; at++)
        name[at] = (char)entry->FileName[at];
}

static void put_entry_wide(void *to, const FILE_BOTH_DIR_INFORMATION *entry)
{
    WCHAR *name = (WCHAR *)((uint8_t *)to + sizeof(FoundData));
    memset(name, 0, (MOST + 14) * sizeof(WCHAR));
    put_entry(to, entry);
    memcpy(name, entry->FileName, entry->FileNameLength < (MOST - 1) * sizeof(WCHAR) ? entry->FileNameLength : (MOST - 1) * sizeof(WCHAR));
}

typedef void PutEntry(void *to, const FILE_BOTH_DIR_INFORMATION *entry);

/* What stands behind the last separator is looked for; `.` and `..` name the folder itself, and the one above, in the one that it is in. */
static uint32_t begin_search(char *path, KzSearch *search)
{
    const char *slash = strrchr(path, '/');
    if (slash && (strcmp(slash, "/.") == 0 || strcmp(slash, "/..") == 0))
        kz_plain_path(path);
    char *last = strrchr(path, '/');
    if (!last)
        return 3;
    kz_search_expression(search->pattern, sizeof search->pattern, last + 1);
    if (!search->pattern[0])
        return 2;
    last[last > path && last[-1] == ':'] = 0; /* `C:/` is a root */
    kz_plain_path(path);
    const KzCreate create = opening(FILE_LIST_DIRECTORY, FILE_OPEN, FILE_DIRECTORY_FILE);
    uint32_t error = kz_open_path(path, &create, &search->file);
    return error == 2 ? 3 : error; /* it is the path that isn't there */
}

static void *find_first(char *path, void *to, PutEntry *put)
{
    const FILE_BOTH_DIR_INFORMATION *entry = NULL;
    KzSearch *search = kz_memory(sizeof *search);
    uint32_t error = begin_search(path, search);
    if (!error)
        entry = next_entry(search, true, &error);
    if (!entry) {
        if (search->file)
            kz_close_opened(search->file);
        free(search);
        kz_failed(error);
        return (void *)(intptr_t)-1;
    }
    put(to, entry);
    KzObject *object = kz_new_object(KZU_SEARCH);
    object->search = search;
    return object;
}

static int find_next(void *handle, void *to, PutEntry *put)
{
    uint32_t error;
    KzObject *object = kz_object(handle, KZU_SEARCH);
    const FILE_BOTH_DIR_INFORMATION *entry = object ? next_entry(object->search, false, &error) : NULL;
    if (!entry)
        return object ? kz_failed(error) : 0;
    put(to, entry);
    return 1;
}

#define SEARCH(letter, type, convert, put)                                                                                                                        \
    void *FindFirstFile##letter(const type *name, void *data);                                                                                                   \
    void *FindFirstFile##letter(const type *name, void *data)                                                                                                    \
    {                                                                                                                                                            \
        void *found;                                                                                                                                             \
        {                                                                                                                                                        \
            KZ_CALL();                                                                                                                                           \
            char path[KZ_PROGRAM_PATH];                                                                                                                          \
            convert(path, sizeof path, name);                                                                                                                    \
            found = find_first(path, data, put);                                                                                                                 \
        }                                                                                                                                                        \
        kz_go_on_or_end();                                                                                                                                       \
        return found;                                                                                                                                            \
    }                                                                                                                                                            \
    int FindNextFile##letter(void *handle, void *data);                                                                                                          \
    int FindNextFile##letter(void *handle, void *data)                                                                                                           \
    {                                                                                                                                                            \
        int is_right;                                                                                                                                            \
        {                                                                                                                                                        \
            KZ_CALL();                                                                                                                                           \
            is_right = find_next(handle, data, put);                                                                                                             \
        }                                                                                                                                                        \
        kz_go_on_or_end();                                                                                                                                       \
        return is_right;                                                                                                                                         \
    }
SEARCH(A, char, kz_letters_of, put_entry_narrow)
SEARCH(W, WCHAR, kz_letters_of_wide, put_entry_wide)

int FindClose(void *handle);
int FindClose(void *handle)
{
    bool is_right;
    {
        KZ_CALL();
        KzObject *object = kz_object(handle, KZU_SEARCH);
        is_right = object;
        if (object)
            kz_close_object(object);
    }
    kz_go_on_or_end();
    return is_right;
}
