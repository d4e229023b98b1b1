/* Files as a program of Windows asks for them: each call is one of the kernel's, and its status the last error. */
#define SUITE_OWN
#include "suite.h"

static BOOL told(NTSTATUS status)
{
    suite_error = RtlNtStatusToDosError(status);
    return NT_SUCCESS(status);
}

/* `C:\x` is `\??\C:\x`, and so is what stands in no folder. */
BOOLEAN suite_nt_path(const WCHAR *path, UNICODE_STRING *made, WCHAR **name, CURDIR *folder)
{
    UNICODE_STRING text;
    SIZE_T size = (wcslen(path) + 16) * sizeof(WCHAR);
    UNREFERENCED_PARAMETER(folder);
    *made = (UNICODE_STRING){0, (USHORT)size, suite_alloc(size)};
    RtlAppendUnicodeToString(made, L"\\??\\");
    if (path[0] && path[1] != ':')
        RtlAppendUnicodeToString(made, L"C:\\");
    if (wcsncmp(path, L"\\\\?\\", 4) == 0 || wcsncmp(path, L"\\\\.\\", 4) == 0)
        made->Length = 8, path += 4;
    RtlInitUnicodeString(&text, path);
    RtlAppendUnicodeStringToString(made, &text);
    if (name)
        *name = wcsrchr(made->Buffer, '\\') + 1;
    return TRUE;
}

BOOLEAN suite_unicode(UNICODE_STRING *made, const char *text)
{
    ANSI_STRING bytes;
    RtlInitAnsiString(&bytes, text);
    return NT_SUCCESS(RtlAnsiStringToUnicodeString(made, &bytes, TRUE));
}

static WCHAR *wide(const char *text, WCHAR *room)
{
    int at = 0;
    for (; text[at]; at++)
        room[at] = (UCHAR)text[at];
    room[at] = 0;
    return room;
}

static NTSTATUS open_path(const WCHAR *path, HANDLE *file, DWORD access, DWORD share, ULONG disposition, ULONG options, ULONG attributes, IO_STATUS_BLOCK *block)
{
    UNICODE_STRING name;
    OBJECT_ATTRIBUTES object;
    NTSTATUS status;
    suite_nt_path(path, &name, NULL, NULL);
    InitializeObjectAttributes(&object, &name, OBJ_CASE_INSENSITIVE | OBJ_KERNEL_HANDLE, NULL, NULL);
    block->Information = 0;
    status = ZwCreateFile(file, access, &object, block, NULL, attributes, share, disposition, options, NULL, 0);
    suite_free(name.Buffer);
    return status;
}

HANDLE CreateFileW(const WCHAR *path, DWORD access, DWORD share, PVOID security, DWORD disposition, DWORD flags, HANDLE other)
{
    static const ULONG dispositions[] = {FILE_OPEN, FILE_CREATE, FILE_OVERWRITE_IF, FILE_OPEN, FILE_OPEN_IF, FILE_OVERWRITE};
    ULONG options = (flags & FILE_FLAG_OVERLAPPED ? 0 : FILE_SYNCHRONOUS_IO_NONALERT) | (flags & FILE_FLAG_BACKUP_SEMANTICS ? FILE_OPEN_FOR_BACKUP_INTENT : FILE_NON_DIRECTORY_FILE);
    IO_STATUS_BLOCK block;
    HANDLE file = NULL;
    UNREFERENCED_PARAMETER(security);
    UNREFERENCED_PARAMETER(other);
    options |= (flags & FILE_FLAG_DELETE_ON_CLOSE ? FILE_DELETE_ON_CLOSE : 0) | (flags & FILE_FLAG_NO_BUFFERING ? FILE_NO_INTERMEDIATE_BUFFERING : 0);
    access |= SYNCHRONIZE | FILE_READ_ATTRIBUTES | (flags & FILE_FLAG_DELETE_ON_CLOSE ? DELETE : 0);
    if (!told(open_path(path, &file, access, share, dispositions[disposition], options, flags & 0x7fb7, &block)))
        return INVALID_HANDLE_VALUE;
    if ((disposition == CREATE_ALWAYS && block.Information == FILE_OVERWRITTEN) || (disposition == OPEN_ALWAYS && block.Information == FILE_OPENED))
        suite_error = 183;
    return file;
}

BOOL CreateDirectoryW(const WCHAR *path, PVOID security)
{
    IO_STATUS_BLOCK block;
    HANDLE file;
    UNREFERENCED_PARAMETER(security);
    if (!told(open_path(path, &file, FILE_READ_ATTRIBUTES | SYNCHRONIZE, 7, FILE_CREATE, FILE_DIRECTORY_FILE | FILE_SYNCHRONOUS_IO_NONALERT, FILE_ATTRIBUTE_NORMAL, &block)))
        return FALSE;
    ZwClose(file);
    return TRUE;
}

static BOOL remove_path(const WCHAR *path, ULONG kind)
{
    FILE_DISPOSITION_INFORMATION disposition = {TRUE};
    IO_STATUS_BLOCK block;
    HANDLE file;
    NTSTATUS status = open_path(path, &file, DELETE | SYNCHRONIZE, 7, FILE_OPEN, kind | FILE_SYNCHRONOUS_IO_NONALERT, 0, &block);
    if (!told(status))
        return FALSE;
    status = ZwSetInformationFile(file, &block, &disposition, sizeof disposition, FileDispositionInformation);
    ZwClose(file);
    return told(status);
}

BOOL DeleteFileW(const WCHAR *path)
{
    return remove_path(path, FILE_NON_DIRECTORY_FILE);
}

BOOL RemoveDirectoryW(const WCHAR *path)
{
    return remove_path(path, FILE_DIRECTORY_FILE);
}

BOOL SetFileAttributesW(const WCHAR *path, DWORD attributes)
{
    FILE_BASIC_INFORMATION basic = {.FileAttributes = attributes ? attributes : FILE_ATTRIBUTE_NORMAL};
    IO_STATUS_BLOCK block;
    HANDLE file;
    NTSTATUS status = open_path(path, &file, FILE_WRITE_ATTRIBUTES | SYNCHRONIZE, 7, FILE_OPEN, FILE_SYNCHRONOUS_IO_NONALERT, 0, &block);
    if (!told(status))
        return FALSE;
    status = ZwSetInformationFile(file, &block, &basic, sizeof basic, FileBasicInformation);
    ZwClose(file);
    return told(status);
}

DWORD GetFileAttributesW(const WCHAR *path)
{
    FILE_BASIC_INFORMATION basic = {.FileAttributes = INVALID_FILE_ATTRIBUTES};
    IO_STATUS_BLOCK block;
    HANDLE file;
    NTSTATUS status = open_path(path, &file, FILE_READ_ATTRIBUTES | SYNCHRONIZE, 7, FILE_OPEN, FILE_SYNCHRONOUS_IO_NONALERT, 0, &block);
    if (!told(status))
        return INVALID_FILE_ATTRIBUTES;
    told(ZwQueryInformationFile(file, &block, &basic, sizeof basic, FileBasicInformation));
    ZwClose(file);
    return basic.FileAttributes;
}

/* ---- By names in bytes. */
HANDLE CreateFileA(const char *path, DWORD access, DWORD share, PVOID security, DWORD disposition, DWORD flags, HANDLE other)
{
    WCHAR room[MAX_PATH];
    return CreateFileW(wide(path, room), access, share, security, disposition, flags, other);
}

BOOL CreateDirectoryA(const char *path, PVOID security)
{
    WCHAR room[MAX_PATH];
    return CreateDirectoryW(wide(path, room), security);
}

BOOL DeleteFileA(const char *path)
{
    WCHAR room[MAX_PATH];
    return DeleteFileW(wide(path, room));
}

BOOL RemoveDirectoryA(const char *path)
{
    WCHAR room[MAX_PATH];
    return RemoveDirectoryW(wide(path, room));
}

BOOL SetFileAttributesA(const char *path, DWORD attributes)
{
    WCHAR room[MAX_PATH];
    return SetFileAttributesW(wide(path, room), attributes);
}

DWORD GetFileAttributesA(const char *path)
{
    WCHAR room[MAX_PATH];
    return GetFileAttributesW(wide(path, room));
}

/* ---- Names of temporary files: a folder that is there, and a number that counts. */
DWORD GetTempPathW(DWORD size, WCHAR *path)
{
    UNREFERENCED_PARAMETER(size);
    CreateDirectoryW(L"C:\\temp", NULL);
    wcscpy(path, L"C:\\temp\\");
    return 8;
}

DWORD GetTempPathA(DWORD size, char *path)
{
    UNREFERENCED_PARAMETER(size);
    CreateDirectoryW(L"C:\\temp", NULL);
    strcpy(path, "C:\\temp\\");
    return 8;
}

UINT GetTempFileNameW(const WCHAR *folder, const WCHAR *prefix, UINT number, WCHAR *path)
{
    static UINT last;
    HANDLE file;
    if (folder[0] == '.')
        folder = L"C:\\";
    _snwprintf(path, MAX_PATH, L"%ws%ws%.3ws%x.tmp", folder, folder[wcslen(folder) - 1] == '\\' ? L"" : L"\\", prefix, number ? number : ++last);
    if (number)
        return number;
    file = CreateFileW(path, GENERIC_WRITE, 0, NULL, CREATE_NEW, FILE_ATTRIBUTE_NORMAL, NULL);
    ZwClose(file);
    return last;
}

UINT GetTempFileNameA(const char *folder, const char *prefix, UINT number, char *path)
{
    WCHAR room[MAX_PATH], other[MAX_PATH], made[MAX_PATH];
    UINT answer = GetTempFileNameW(wide(folder, room), wide(prefix, other), number, made);
    int at = -1;
    do
        path[at + 1] = (char)made[at + 1];
    while (made[++at]);
    return answer;
}

/* ---- Bytes. */
BOOL ReadFile(HANDLE file, PVOID bytes, DWORD count, DWORD *done, OVERLAPPED *at)
{
    LARGE_INTEGER offset = {0};
    IO_STATUS_BLOCK block = {0};
    NTSTATUS status;
    if (at)
        offset.QuadPart = (LONGLONG)at->OffsetHigh << 32 | at->Offset;
    status = ZwReadFile(file, NULL, NULL, NULL, &block, bytes, count, at ? &offset : NULL, NULL);
    if (done)
        *done = (DWORD)block.Information;
    return status == STATUS_END_OF_FILE && !at ? TRUE : told(status);
}

BOOL WriteFile(HANDLE file, const void *bytes, DWORD count, DWORD *done, OVERLAPPED *at)
{
    LARGE_INTEGER offset = {0};
    IO_STATUS_BLOCK block = {0};
    NTSTATUS status;
    if (at)
        offset.QuadPart = (LONGLONG)at->OffsetHigh << 32 | at->Offset;
    status = ZwWriteFile(file, NULL, NULL, NULL, &block, (PVOID)bytes, count, at ? &offset : NULL, NULL);
    if (done)
        *done = (DWORD)block.Information;
    return told(status);
}

static LONGLONG end_of(HANDLE file)
{
    FILE_STANDARD_INFORMATION standard = {0};
    IO_STATUS_BLOCK block;
    told(ZwQueryInformationFile(file, &block, &standard, sizeof standard, FileStandardInformation));
    return standard.EndOfFile.QuadPart;
}

DWORD SetFilePointer(HANDLE file, LONG low, LONG *high, DWORD from)
{
    FILE_POSITION_INFORMATION position = {0};
    IO_STATUS_BLOCK block;
    LONGLONG begin = 0;
    if (from == FILE_END)
        begin = end_of(file);
    if (from == FILE_CURRENT && NT_SUCCESS(ZwQueryInformationFile(file, &block, &position, sizeof position, FilePositionInformation)))
        begin = position.CurrentByteOffset.QuadPart;
    position.CurrentByteOffset.QuadPart = begin + (high ? (LONGLONG)*high << 32 | (ULONG)low : low);
    if (!told(ZwSetInformationFile(file, &block, &position, sizeof position, FilePositionInformation)))
        return INVALID_SET_FILE_POINTER;
    return position.CurrentByteOffset.LowPart;
}

BOOL SetEndOfFile(HANDLE file)
{
    FILE_POSITION_INFORMATION position = {0};
    IO_STATUS_BLOCK block;
    if (!told(ZwQueryInformationFile(file, &block, &position, sizeof position, FilePositionInformation)))
        return FALSE;
    return told(ZwSetInformationFile(file, &block, &position, sizeof position, FileEndOfFileInformation));
}

DWORD GetFileSize(HANDLE file, DWORD *high)
{
    LONGLONG size = end_of(file);
    if (high)
        *high = (DWORD)(size >> 32);
    return (DWORD)size;
}

BOOL FlushFileBuffers(HANDLE file)
{
    IO_STATUS_BLOCK block;
    return told(ZwFlushBuffersFile(file, &block));
}

/* ---- Events. */
HANDLE CreateEventA(PVOID security, BOOL is_manual, BOOL is_set, const char *name)
{
    OBJECT_ATTRIBUTES object;
    HANDLE made = NULL;
    UNREFERENCED_PARAMETER(security);
    UNREFERENCED_PARAMETER(name);
    InitializeObjectAttributes(&object, NULL, OBJ_KERNEL_HANDLE, NULL, NULL);
    told(ZwCreateEvent(&made, EVENT_ALL_ACCESS, &object, is_manual ? NotificationEvent : SynchronizationEvent, (BOOLEAN)is_set));
    return made;
}

HANDLE CreateEventW(PVOID security, BOOL is_manual, BOOL is_set, const WCHAR *name)
{
    UNREFERENCED_PARAMETER(name);
    return CreateEventA(security, is_manual, is_set, NULL);
}

DWORD WaitForSingleObject(HANDLE object, DWORD time)
{
    LARGE_INTEGER wait = {.QuadPart = -(LONGLONG)time * 10000};
    return ZwWaitForSingleObject(object, FALSE, time == INFINITE ? NULL : &wait) == STATUS_SUCCESS ? WAIT_OBJECT_0 : WAIT_TIMEOUT;
}

/* ---- A handle that is duplicated is the same one: its first close does nothing. */
static HANDLE doubled;

BOOL suite_duplicate(HANDLE from, HANDLE *to)
{
    *to = doubled = from;
    return TRUE;
}

NTSTATUS suite_close(HANDLE handle)
{
    if (handle && handle == doubled) {
        doubled = NULL;
        return STATUS_SUCCESS;
    }
    return ZwClose(handle);
}

/* A folder with some files. */
UINT GetSystemDirectoryW(WCHAR *path, UINT size)
{
    static const WCHAR *const names[] = {L"C:\\windows\\system32\\a.dll", L"C:\\windows\\system32\\B.dll", L"C:\\windows\\system32\\c", L"C:\\windows\\system32\\cmd.exe"};
    if (!size)
        return 20;
    CreateDirectoryW(L"C:\\windows", NULL);
    CreateDirectoryW(L"C:\\windows\\system32", NULL);
    for (ULONG at = 0; at < RTL_NUMBER_OF(names); at++)
        ZwClose(CreateFileW(names[at], GENERIC_WRITE, 0, NULL, OPEN_ALWAYS, FILE_ATTRIBUTE_NORMAL, NULL));
    wcscpy(path, L"C:\\windows\\system32");
    return 19;
}

/* Programs map what the kernel's own sections don't: a test that does ends there. */
HANDLE CreateFileMappingA(HANDLE file, PVOID security, DWORD protection, DWORD high, DWORD low, const char *name)
{
    UNREFERENCED_PARAMETER(file);
    UNREFERENCED_PARAMETER(security);
    UNREFERENCED_PARAMETER(protection);
    UNREFERENCED_PARAMETER(high);
    UNREFERENCED_PARAMETER(low);
    UNREFERENCED_PARAMETER(name);
    suite_missing("CreateFileMapping");
    return NULL;
}

PVOID MapViewOfFile(HANDLE mapping, DWORD access, DWORD high, DWORD low, SIZE_T size)
{
    UNREFERENCED_PARAMETER(mapping);
    UNREFERENCED_PARAMETER(access);
    UNREFERENCED_PARAMETER(high);
    UNREFERENCED_PARAMETER(low);
    UNREFERENCED_PARAMETER(size);
    return NULL;
}

BOOL UnmapViewOfFile(const void *view)
{
    UNREFERENCED_PARAMETER(view);
    return FALSE;
}
