/* Files as a program of Windows asks for them, by the kernel's calls. */
#ifndef SUITE_FILES_H
#define SUITE_FILES_H

typedef FILE_BOTH_DIR_INFORMATION FILE_BOTH_DIRECTORY_INFORMATION;
typedef FILE_ID_BOTH_DIR_INFORMATION FILE_ID_BOTH_DIRECTORY_INFORMATION;
typedef FILE_ID_FULL_DIR_INFORMATION FILE_ID_FULL_DIRECTORY_INFORMATION;
typedef HANDLE HKEY;
typedef struct _KEY_CACHED_INFORMATION {
    LARGE_INTEGER LastWriteTime;
    ULONG TitleIndex, SubKeys, MaxNameLen, Values, MaxValueNameLen, MaxValueDataLen, NameLength;
    WCHAR Name[1];
} KEY_CACHED_INFORMATION;
typedef int CURDIR;
typedef struct _SECURITY_ATTRIBUTES *LPSECURITY_ATTRIBUTES;
typedef struct _OVERLAPPED {
    ULONG_PTR Internal, InternalHigh;
    DWORD Offset, OffsetHigh;
    HANDLE hEvent;
} OVERLAPPED;
#define CREATE_NEW 1
#define CREATE_ALWAYS 2
#define OPEN_EXISTING 3
#define OPEN_ALWAYS 4
#define TRUNCATE_EXISTING 5
#define FILE_FLAG_DELETE_ON_CLOSE 0x04000000
#define FILE_FLAG_OVERLAPPED 0x40000000
#define FILE_FLAG_BACKUP_SEMANTICS 0x02000000
#define FILE_FLAG_WRITE_THROUGH 0x80000000
#define FILE_FLAG_NO_BUFFERING 0x20000000
#define FILE_FLAG_OPEN_REPARSE_POINT 0x00200000
#define FILE_BEGIN 0
#define FILE_CURRENT 1
#define FILE_END 2
#define INVALID_HANDLE_VALUE ((HANDLE)(LONG_PTR)-1)
#define INVALID_FILE_ATTRIBUTES 0xffffffff
#define INVALID_FILE_SIZE 0xffffffff
#define INVALID_SET_FILE_POINTER 0xffffffff
#define DUPLICATE_CLOSE_SOURCE 1
#define DUPLICATE_SAME_ACCESS 2
#define DuplicateHandle(process, from, other, to, access, inherits, options) suite_duplicate(from, to)
BOOL suite_duplicate(HANDLE from, HANDLE *to);
NTSTATUS suite_close(HANDLE handle);
#define GetModuleFileNameA(module, path, size) 0
UINT GetSystemDirectoryW(WCHAR *path, UINT size);
typedef int IO_COMPLETION_INFORMATION_CLASS;
typedef struct _FILE_IO_COMPLETION_INFORMATION FILE_IO_COMPLETION_INFORMATION;
#define DoDeleteFile DeleteFile
#define FILE_MAP_READ 4
#define FILE_MAP_WRITE 2
#define MAXDWORD 0xffffffff
typedef struct {
    DWORD dwFileAttributes;
    WCHAR cFileName[MAX_PATH];
} WIN32_FIND_DATAW;
HANDLE CreateFileMappingA(HANDLE file, PVOID security, DWORD protection, DWORD high, DWORD low, const char *name);
PVOID MapViewOfFile(HANDLE mapping, DWORD access, DWORD high, DWORD low, SIZE_T size);
BOOL UnmapViewOfFile(const void *view);
#define FindFirstFileW(path, found) (suite_missing("FindFirstFileW"), (HANDLE)0)
#define FindNextFileW(find, found) 0
#define FindClose(find) 0
#define GetVolumeNameForVolumeMountPointW(path, name, size) (suite_missing("GetVolumeNameForVolumeMountPointW"), 0)
#define GetQueuedCompletionStatus(port, done, key, at, time) (suite_missing("GetQueuedCompletionStatus"), 0)
#define NtQueryInformationFile ZwQueryInformationFile
#define NtSetInformationFile ZwSetInformationFile
#define NtQueryVolumeInformationFile ZwQueryVolumeInformationFile
#define NtCreateFile ZwCreateFile
#define NtOpenFile ZwOpenFile
#define NtClose ZwClose
#define NtReadFile ZwReadFile
#define NtWriteFile ZwWriteFile
#define NtFsControlFile ZwFsControlFile
#define NtDeviceIoControlFile ZwDeviceIoControlFile
#define NtFlushBuffersFile ZwFlushBuffersFile
#define CharLowerW(text) _wcslwr(text)
#define SleepEx(time, alertable) 0
#define Sleep(time) ((void)0)
#define GetWindowsDirectoryW(path, size) (CreateDirectoryW(L"C:\\windows", NULL), wcscpy(path, L"C:\\windows"), 10)
#define GetCurrentDirectoryW(size, path) (wcscpy(path, L"C:\\"), 3)
#define WAIT_OBJECT_0 0
#define WAIT_TIMEOUT 258
#define INFINITE 0xffffffff

HANDLE CreateFileW(const WCHAR *path, DWORD access, DWORD share, PVOID security, DWORD disposition, DWORD flags, HANDLE other);
HANDLE CreateFileA(const char *path, DWORD access, DWORD share, PVOID security, DWORD disposition, DWORD flags, HANDLE other);
BOOL CreateDirectoryW(const WCHAR *path, PVOID security);
BOOL CreateDirectoryA(const char *path, PVOID security);
BOOL DeleteFileW(const WCHAR *path);
BOOL DeleteFileA(const char *path);
BOOL RemoveDirectoryW(const WCHAR *path);
BOOL RemoveDirectoryA(const char *path);
BOOL SetFileAttributesW(const WCHAR *path, DWORD attributes);
BOOL SetFileAttributesA(const char *path, DWORD attributes);
DWORD GetFileAttributesW(const WCHAR *path);
DWORD GetFileAttributesA(const char *path);
DWORD GetTempPathW(DWORD size, WCHAR *path);
DWORD GetTempPathA(DWORD size, char *path);
UINT GetTempFileNameW(const WCHAR *folder, const WCHAR *prefix, UINT number, WCHAR *path);
UINT GetTempFileNameA(const char *folder, const char *prefix, UINT number, char *path);
BOOL ReadFile(HANDLE file, PVOID bytes, DWORD count, DWORD *done, OVERLAPPED *at);
BOOL WriteFile(HANDLE file, const void *bytes, DWORD count, DWORD *done, OVERLAPPED *at);
DWORD SetFilePointer(HANDLE file, LONG low, LONG *high, DWORD from);
BOOL SetEndOfFile(HANDLE file);
DWORD GetFileSize(HANDLE file, DWORD *high);
BOOL FlushFileBuffers(HANDLE file);
HANDLE CreateEventA(PVOID security, BOOL is_manual, BOOL is_set, const char *name);
HANDLE CreateEventW(PVOID security, BOOL is_manual, BOOL is_set, const WCHAR *name);
DWORD WaitForSingleObject(HANDLE object, DWORD time);
BOOLEAN suite_nt_path(const WCHAR *path, UNICODE_STRING *made, WCHAR **name, CURDIR *folder);
BOOLEAN suite_unicode(UNICODE_STRING *made, const char *text);

#endif
