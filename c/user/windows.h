/* Windows as a filter's program sees it: what such programs call to wait, to run threads, and to read and write files. Each call is the host's (c/host/user); what isn't declared isn't there. */
#ifndef KZ_WINDOWS_H
#define KZ_WINDOWS_H

#include "ntdef.h"

#include <ctype.h>
#include <stdarg.h>
#include <stddef.h>
#include <stdio.h>
#include <stdlib.h>
#include <string.h>

#define WINAPI
#define CALLBACK
#define APIENTRY
#define CONST const
#define __cdecl
#define _cdecl
#define __stdcall
#define WINBASEAPI
#define DECLSPEC_ALIGN(n) __attribute__((aligned(n)))

KZ_BEGIN

typedef char TCHAR, *PTCHAR, *LPTSTR, *PTSTR;
typedef const char *LPCTSTR, *PCTSTR;
typedef DWORD *LPDWORD;
typedef LONG *LPLONG;
typedef BOOL *LPBOOL;
typedef BYTE *LPBYTE;
typedef HANDLE *LPHANDLE, HINSTANCE, HMODULE, HLOCAL, HGLOBAL;
typedef const void *PSECURITY_ATTRIBUTES_, *LPSECURITY_ATTRIBUTES, *PSECURITY_ATTRIBUTES;
typedef DWORD (*LPTHREAD_START_ROUTINE)(LPVOID Parameter);
typedef LPTHREAD_START_ROUTINE PTHREAD_START_ROUTINE;

typedef struct _FILETIME {
    DWORD dwLowDateTime, dwHighDateTime;
} FILETIME, *PFILETIME, *LPFILETIME;

typedef struct _SYSTEMTIME {
    WORD wYear, wMonth, wDayOfWeek, wDay, wHour, wMinute, wSecond, wMilliseconds;
} SYSTEMTIME, *PSYSTEMTIME, *LPSYSTEMTIME;

typedef struct _OVERLAPPED {
    ULONG_PTR Internal;     /* the status */
    ULONG_PTR InternalHigh; /* the number of bytes */
    union {
        struct {
            DWORD Offset, OffsetHigh;
        };
        PVOID Pointer;
    };
    HANDLE hEvent;
} OVERLAPPED, *LPOVERLAPPED;

typedef struct _CRITICAL_SECTION {
    PVOID Owner;
    LONG Count;
} CRITICAL_SECTION, *PCRITICAL_SECTION, *LPCRITICAL_SECTION;
typedef struct _RTL_SRWLOCK {
    PVOID Ptr;
} SRWLOCK, *PSRWLOCK;
#define SRWLOCK_INIT {0}

/* ---- Errors. */
#define ERROR_SUCCESS 0L
#define NO_ERROR 0L
#define ERROR_INVALID_FUNCTION 1L
#define ERROR_FILE_NOT_FOUND 2L
#define ERROR_PATH_NOT_FOUND 3L
#define ERROR_ACCESS_DENIED 5L
#define ERROR_INVALID_HANDLE 6L
#define ERROR_NOT_ENOUGH_MEMORY 8L
#define ERROR_OUTOFMEMORY 14L
#define ERROR_NO_MORE_FILES 18L
#define ERROR_GEN_FAILURE 31L
#define ERROR_HANDLE_EOF 38L
#define ERROR_NOT_SUPPORTED 50L
#define ERROR_FILE_EXISTS 80L
#define ERROR_INVALID_PARAMETER 87L
#define ERROR_SEM_TIMEOUT 121L
#define ERROR_INSUFFICIENT_BUFFER 122L
#define ERROR_INVALID_NAME 123L
#define ERROR_ALREADY_EXISTS 183L
#define ERROR_MORE_DATA 234L
#define WAIT_TIMEOUT 258L
#define ERROR_NO_MORE_ITEMS 259L
#define ERROR_DELETE_PENDING 303L
#define ERROR_MR_MID_NOT_FOUND 317L
#define ERROR_VIRUS_INFECTED 225L
#define ERROR_ABANDONED_WAIT_0 735L
#define ERROR_OPLOCK_NOT_GRANTED 300L
#define ERROR_INVALID_OPLOCK_PROTOCOL 301L
#define ERROR_OPERATION_ABORTED 995L
#define ERROR_IO_INCOMPLETE 996L
#define ERROR_IO_PENDING 997L
#define ERROR_SERVICE_ALREADY_RUNNING 1056L
#define ERROR_IO_DEVICE 1117L
#define ERROR_NOT_FOUND 1168L
#define ERROR_CANCELLED 1223L
#define ERROR_CONNECTION_COUNT_LIMIT 1238L
#define ERROR_NO_SYSTEM_RESOURCES 1450L
#define ERROR_TIMEOUT 1460L

#define S_OK ((HRESULT)0)
#define S_FALSE ((HRESULT)1)
#define E_FAIL ((HRESULT)0x80004005)
#define E_NOTIMPL ((HRESULT)0x80004001)
#define E_ACCESSDENIED ((HRESULT)0x80070005)
#define E_HANDLE ((HRESULT)0x80070006)
#define E_OUTOFMEMORY ((HRESULT)0x8007000e)
#define E_INVALIDARG ((HRESULT)0x80070057)
#define FACILITY_WIN32 7
#define SUCCEEDED(hr) ((HRESULT)(hr) >= 0)
#define FAILED(hr) ((HRESULT)(hr) < 0)
#define IS_ERROR(status) ((ULONG)(status) >> 31 == 1)
#define HRESULT_CODE(hr) ((hr)&0xffff)
static inline HRESULT HRESULT_FROM_WIN32(ULONG error)
{
    return (HRESULT)error <= 0 ? (HRESULT)error : (HRESULT)((error & 0xffff) | FACILITY_WIN32 << 16 | 0x80000000);
}

DWORD GetLastError(void);
void SetLastError(DWORD Error);

/* ---- Threads and processes. */
#define INFINITE 0xffffffff
#define WAIT_OBJECT_0 0L
#define WAIT_ABANDONED 0x80L
#define WAIT_FAILED 0xffffffff
#define MAXIMUM_WAIT_OBJECTS 64
#define CREATE_SUSPENDED 4
#define STILL_ACTIVE 259
HANDLE CreateThread(LPSECURITY_ATTRIBUTES Attributes, SIZE_T StackSize, LPTHREAD_START_ROUTINE Start, LPVOID Parameter, DWORD Flags, LPDWORD ThreadId);
uintptr_t _beginthreadex(void *Security, unsigned StackSize, unsigned (*Start)(void *), void *Parameter, unsigned Flags, unsigned *ThreadId);
__attribute__((noreturn)) void ExitThread(DWORD ExitCode);
__attribute__((noreturn)) void ExitProcess(UINT ExitCode);
BOOL GetExitCodeThread(HANDLE Thread, LPDWORD ExitCode);
DWORD GetCurrentProcessId(void);
DWORD GetCurrentThreadId(void);
#define GetCurrentProcess() ((HANDLE)(LONG_PTR)-1)
BOOL CloseHandle(HANDLE Object);

/* ---- What can be waited for. */
DWORD WaitForSingleObject(HANDLE Object, DWORD Milliseconds);
DWORD WaitForSingleObjectEx(HANDLE Object, DWORD Milliseconds, BOOL Alertable);
DWORD WaitForMultipleObjects(DWORD Count, const HANDLE *Objects, BOOL WaitAll, DWORD Milliseconds);
DWORD WaitForMultipleObjectsEx(DWORD Count, const HANDLE *Objects, BOOL WaitAll, DWORD Milliseconds, BOOL Alertable);
void Sleep(DWORD Milliseconds);
HANDLE CreateEventA(LPSECURITY_ATTRIBUTES Attributes, BOOL ManualReset, BOOL InitialState, LPCSTR Name);
HANDLE CreateEventW(LPSECURITY_ATTRIBUTES Attributes, BOOL ManualReset, BOOL InitialState, LPCWSTR Name);
BOOL SetEvent(HANDLE Event);
BOOL ResetEvent(HANDLE Event);
HANDLE CreateSemaphoreA(LPSECURITY_ATTRIBUTES Attributes, LONG InitialCount, LONG MaximumCount, LPCSTR Name);
HANDLE CreateSemaphoreW(LPSECURITY_ATTRIBUTES Attributes, LONG InitialCount, LONG MaximumCount, LPCWSTR Name);
BOOL ReleaseSemaphore(HANDLE Semaphore, LONG Count, LPLONG PreviousCount);
HANDLE CreateMutexA(LPSECURITY_ATTRIBUTES Attributes, BOOL InitialOwner, LPCSTR Name);
HANDLE CreateMutexW(LPSECURITY_ATTRIBUTES Attributes, BOOL InitialOwner, LPCWSTR Name);
BOOL ReleaseMutex(HANDLE Mutex);
void InitializeCriticalSection(LPCRITICAL_SECTION Section);
void EnterCriticalSection(LPCRITICAL_SECTION Section);
BOOL TryEnterCriticalSection(LPCRITICAL_SECTION Section);
void LeaveCriticalSection(LPCRITICAL_SECTION Section);
void DeleteCriticalSection(LPCRITICAL_SECTION Section);
void InitializeSRWLock(PSRWLOCK Lock);
void AcquireSRWLockExclusive(PSRWLOCK Lock);
void AcquireSRWLockShared(PSRWLOCK Lock);
BOOLEAN TryAcquireSRWLockExclusive(PSRWLOCK Lock);
BOOLEAN TryAcquireSRWLockShared(PSRWLOCK Lock);
void ReleaseSRWLockExclusive(PSRWLOCK Lock);
void ReleaseSRWLockShared(PSRWLOCK Lock);

/* ---- Other processes. */
#define PROCESS_TERMINATE 0x0001
#define PROCESS_VM_READ 0x0010
#define PROCESS_VM_WRITE 0x0020
#define PROCESS_QUERY_INFORMATION 0x0400
#define PROCESS_QUERY_LIMITED_INFORMATION 0x1000
HANDLE OpenProcess(DWORD Access, BOOL Inherits, DWORD ProcessId);
DWORD GetProcessId(HANDLE Process);
BOOL TerminateProcess(HANDLE Process, UINT ExitCode);

/* ---- The registry: keys below HKEY_LOCAL_MACHINE. */
typedef HANDLE HKEY, *PHKEY;
typedef DWORD REGSAM;
typedef LONG LSTATUS;
#define HKEY_LOCAL_MACHINE ((HKEY)(LONG_PTR)(LONG)0x80000002)
#ifndef REG_SZ
#define REG_SZ 1
#define REG_BINARY 3
#define REG_DWORD 4
#endif
#ifndef KEY_READ
#define KEY_READ 0x20019
#define KEY_WRITE 0x20006
#define KEY_ALL_ACCESS 0xf003f
#endif
LSTATUS RegOpenKeyExW(HKEY Key, LPCWSTR Name, DWORD Options, REGSAM Access, PHKEY Result);
LSTATUS RegCreateKeyExW(HKEY Key, LPCWSTR Name, DWORD Reserved, LPWSTR Class, DWORD Options, REGSAM Access, LPSECURITY_ATTRIBUTES Attributes, PHKEY Result, LPDWORD Disposition);
LSTATUS RegSetValueExW(HKEY Key, LPCWSTR Name, DWORD Reserved, DWORD Type, const BYTE *Data, DWORD Length);
LSTATUS RegQueryValueExW(HKEY Key, LPCWSTR Name, LPDWORD Reserved, LPDWORD Type, BYTE *Data, LPDWORD Length);
LSTATUS RegDeleteValueW(HKEY Key, LPCWSTR Name);
LSTATUS RegCloseKey(HKEY Key);

/* ---- Services: each call is a limit, and fails. */
typedef HANDLE SC_HANDLE;
SC_HANDLE OpenSCManagerW(LPCWSTR Machine, LPCWSTR Database, DWORD Access);
SC_HANDLE OpenServiceW(SC_HANDLE Manager, LPCWSTR Name, DWORD Access);
BOOL StartServiceW(SC_HANDLE Service, DWORD Count, LPCWSTR *Words);
BOOL ControlService(SC_HANDLE Service, DWORD Control, LPVOID Status);
BOOL QueryServiceStatus(SC_HANDLE Service, LPVOID Status);
BOOL CloseServiceHandle(SC_HANDLE Object);
BOOL StartServiceCtrlDispatcherW(LPCVOID Table);

/* ---- Locks of bytes, and notices. */
#define LOCKFILE_FAIL_IMMEDIATELY 1
#define LOCKFILE_EXCLUSIVE_LOCK 2
#ifndef FILE_NOTIFY_CHANGE_FILE_NAME
#define FILE_NOTIFY_CHANGE_FILE_NAME 0x001
#define FILE_NOTIFY_CHANGE_DIR_NAME 0x002
#define FILE_NOTIFY_CHANGE_ATTRIBUTES 0x004
#define FILE_NOTIFY_CHANGE_SIZE 0x008
#define FILE_NOTIFY_CHANGE_LAST_WRITE 0x010
#define FILE_ACTION_ADDED 1
#define FILE_ACTION_REMOVED 2
#define FILE_ACTION_MODIFIED 3
typedef struct _FILE_NOTIFY_INFORMATION {
    DWORD NextEntryOffset, Action, FileNameLength;
    WCHAR FileName[1];
} FILE_NOTIFY_INFORMATION, *PFILE_NOTIFY_INFORMATION;
#endif
BOOL LockFileEx(HANDLE File, DWORD Flags, DWORD Reserved, DWORD Low, DWORD High, LPOVERLAPPED Overlapped);
BOOL UnlockFileEx(HANDLE File, DWORD Reserved, DWORD Low, DWORD High, LPOVERLAPPED Overlapped);
BOOL LockFile(HANDLE File, DWORD OffsetLow, DWORD OffsetHigh, DWORD Low, DWORD High);
BOOL UnlockFile(HANDLE File, DWORD OffsetLow, DWORD OffsetHigh, DWORD Low, DWORD High);
BOOL ReadDirectoryChangesW(HANDLE Directory, LPVOID Buffer, DWORD Length, BOOL WatchSubtree, DWORD Filter, LPDWORD Returned, LPOVERLAPPED Overlapped, LPVOID Routine);

/* ---- Completion ports. */
HANDLE CreateIoCompletionPort(HANDLE File, HANDLE Existing, ULONG_PTR Key, DWORD Threads);
BOOL GetQueuedCompletionStatus(HANDLE Port, LPDWORD Bytes, ULONG_PTR *Key, LPOVERLAPPED *Overlapped, DWORD Milliseconds);
BOOL PostQueuedCompletionStatus(HANDLE Port, DWORD Bytes, ULONG_PTR Key, LPOVERLAPPED Overlapped);
BOOL GetOverlappedResult(HANDLE File, LPOVERLAPPED Overlapped, LPDWORD Bytes, BOOL Wait);
BOOL CancelIo(HANDLE File);
BOOL CancelIoEx(HANDLE File, LPOVERLAPPED Overlapped);
#define HasOverlappedIoCompleted(o) ((NTSTATUS)(o)->Internal != 0x103)

/* ---- Files. Each call is a request of the program's process, through all filters. */
#define GENERIC_READ 0x80000000
#ifndef FILE_LIST_DIRECTORY
#define FILE_READ_DATA 0x0001
#define FILE_LIST_DIRECTORY 0x0001
#define FILE_WRITE_DATA 0x0002
#define FILE_APPEND_DATA 0x0004
#define FILE_READ_ATTRIBUTES 0x0080
#define FILE_WRITE_ATTRIBUTES 0x0100
#define DELETE 0x00010000
#define SYNCHRONIZE 0x00100000
#endif
#define GENERIC_WRITE 0x40000000
#define GENERIC_EXECUTE 0x20000000
#define GENERIC_ALL 0x10000000
#define DELETE 0x00010000
#define FILE_SHARE_READ 1
#define FILE_SHARE_WRITE 2
#define FILE_SHARE_DELETE 4
#define CREATE_NEW 1
#define CREATE_ALWAYS 2
#define OPEN_EXISTING 3
#define OPEN_ALWAYS 4
#define TRUNCATE_EXISTING 5
#define FILE_ATTRIBUTE_READONLY 0x00000001
#define FILE_ATTRIBUTE_HIDDEN 0x00000002
#define FILE_ATTRIBUTE_SYSTEM 0x00000004
#define FILE_ATTRIBUTE_DIRECTORY 0x00000010
#define FILE_ATTRIBUTE_ARCHIVE 0x00000020
#define FILE_ATTRIBUTE_NORMAL 0x80
#define FILE_ATTRIBUTE_TEMPORARY 0x00000100
#define FILE_ATTRIBUTE_OFFLINE 0x00001000
#define FILE_FLAG_OPEN_NO_RECALL 0x00100000
#define FILE_FLAG_OPEN_REPARSE_POINT 0x00200000
#define FILE_FLAG_BACKUP_SEMANTICS 0x02000000
#define FILE_FLAG_DELETE_ON_CLOSE 0x04000000
#define FILE_FLAG_SEQUENTIAL_SCAN 0x08000000
#define FILE_FLAG_RANDOM_ACCESS 0x10000000
#define FILE_FLAG_NO_BUFFERING 0x20000000
#define FILE_FLAG_OVERLAPPED 0x40000000
#define FILE_FLAG_WRITE_THROUGH 0x80000000
#define FILE_BEGIN 0
#define FILE_CURRENT 1
#define FILE_END 2
#define INVALID_FILE_SIZE 0xffffffff
#define INVALID_SET_FILE_POINTER 0xffffffff
HANDLE CreateFileA(LPCSTR Name, DWORD Access, DWORD Share, LPSECURITY_ATTRIBUTES Attributes, DWORD Disposition, DWORD Flags, HANDLE Template);
HANDLE CreateFileTransactedA(LPCSTR Name, DWORD Access, DWORD Share, LPSECURITY_ATTRIBUTES Attributes, DWORD Disposition, DWORD Flags, HANDLE Template, HANDLE Transaction, PUSHORT MiniVersion, PVOID Extended);
HANDLE CreateFileTransactedW(LPCWSTR Name, DWORD Access, DWORD Share, LPSECURITY_ATTRIBUTES Attributes, DWORD Disposition, DWORD Flags, HANDLE Template, HANDLE Transaction, PUSHORT MiniVersion, PVOID Extended);
HANDLE CreateFileW(LPCWSTR Name, DWORD Access, DWORD Share, LPSECURITY_ATTRIBUTES Attributes, DWORD Disposition, DWORD Flags, HANDLE Template);
BOOL ReadFile(HANDLE File, LPVOID Buffer, DWORD Length, LPDWORD Done, LPOVERLAPPED Overlapped);
BOOL WriteFile(HANDLE File, LPCVOID Buffer, DWORD Length, LPDWORD Done, LPOVERLAPPED Overlapped);
BOOL DeviceIoControl(HANDLE Device, DWORD Code, LPVOID In, DWORD InSize, LPVOID Out, DWORD OutSize, LPDWORD Returned, LPOVERLAPPED Overlapped);
BOOL FlushFileBuffers(HANDLE File);
BOOL GetFileSizeEx(HANDLE File, PLARGE_INTEGER Size);
DWORD GetFileSize(HANDLE File, LPDWORD High);
BOOL SetFilePointerEx(HANDLE File, LARGE_INTEGER Distance, PLARGE_INTEGER New, DWORD Method);
DWORD SetFilePointer(HANDLE File, LONG Distance, PLONG High, DWORD Method);
BOOL SetEndOfFile(HANDLE File);
BOOL DeleteFileA(LPCSTR Name);
BOOL DeleteFileW(LPCWSTR Name);
BOOL DeleteFileTransactedA(LPCSTR Name, HANDLE Transaction);
BOOL DeleteFileTransactedW(LPCWSTR Name, HANDLE Transaction);

/* ---- Directories, and files by their names. */
#define INVALID_FILE_ATTRIBUTES 0xffffffff
#define FILE_ATTRIBUTE_REPARSE_POINT 0x00000400
#define MOVEFILE_REPLACE_EXISTING 1
#define MOVEFILE_COPY_ALLOWED 2
typedef enum _GET_FILEEX_INFO_LEVELS { GetFileExInfoStandard, GetFileExMaxInfoLevel } GET_FILEEX_INFO_LEVELS;
typedef struct _WIN32_FILE_ATTRIBUTE_DATA {
    DWORD dwFileAttributes;
    FILETIME ftCreationTime, ftLastAccessTime, ftLastWriteTime;
    DWORD nFileSizeHigh, nFileSizeLow;
} WIN32_FILE_ATTRIBUTE_DATA, *LPWIN32_FILE_ATTRIBUTE_DATA;
typedef struct _WIN32_FIND_DATAA {
    DWORD dwFileAttributes;
    FILETIME ftCreationTime, ftLastAccessTime, ftLastWriteTime;
    DWORD nFileSizeHigh, nFileSizeLow, dwReserved0, dwReserved1;
    CHAR cFileName[260];
    CHAR cAlternateFileName[14];
} WIN32_FIND_DATAA, *PWIN32_FIND_DATAA, *LPWIN32_FIND_DATAA;
typedef struct _WIN32_FIND_DATAW {
    DWORD dwFileAttributes;
    FILETIME ftCreationTime, ftLastAccessTime, ftLastWriteTime;
    DWORD nFileSizeHigh, nFileSizeLow, dwReserved0, dwReserved1;
    WCHAR cFileName[260];
    WCHAR cAlternateFileName[14];
} WIN32_FIND_DATAW, *PWIN32_FIND_DATAW, *LPWIN32_FIND_DATAW;
BOOL CreateDirectoryA(LPCSTR Name, LPSECURITY_ATTRIBUTES Attributes);
BOOL CreateDirectoryW(LPCWSTR Name, LPSECURITY_ATTRIBUTES Attributes);
BOOL RemoveDirectoryA(LPCSTR Name);
BOOL RemoveDirectoryW(LPCWSTR Name);
DWORD GetFileAttributesA(LPCSTR Name);
DWORD GetFileAttributesW(LPCWSTR Name);
BOOL GetFileAttributesExA(LPCSTR Name, GET_FILEEX_INFO_LEVELS Level, LPVOID Data);
BOOL GetFileAttributesExW(LPCWSTR Name, GET_FILEEX_INFO_LEVELS Level, LPVOID Data);
BOOL SetFileAttributesA(LPCSTR Name, DWORD Attributes);
BOOL SetFileAttributesW(LPCWSTR Name, DWORD Attributes);
BOOL MoveFileA(LPCSTR From, LPCSTR To);
BOOL MoveFileW(LPCWSTR From, LPCWSTR To);
BOOL MoveFileExA(LPCSTR From, LPCSTR To, DWORD Flags);
BOOL MoveFileExW(LPCWSTR From, LPCWSTR To, DWORD Flags);
BOOL MoveFileTransactedA(LPCSTR From, LPCSTR To, PVOID Progress, LPVOID Data, DWORD Flags, HANDLE Transaction);
BOOL MoveFileTransactedW(LPCWSTR From, LPCWSTR To, PVOID Progress, LPVOID Data, DWORD Flags, HANDLE Transaction);
HANDLE FindFirstFileA(LPCSTR Name, LPWIN32_FIND_DATAA Data);
HANDLE FindFirstFileW(LPCWSTR Name, LPWIN32_FIND_DATAW Data);
BOOL FindNextFileA(HANDLE Find, LPWIN32_FIND_DATAA Data);
BOOL FindNextFileW(HANDLE Find, LPWIN32_FIND_DATAW Data);
BOOL FindClose(HANDLE Find);

#define FILE_MAP_COPY 1
#define FILE_MAP_WRITE 2
#define FILE_MAP_READ 4
#define FILE_MAP_ALL_ACCESS 0xf001f
HANDLE CreateFileMappingA(HANDLE File, LPSECURITY_ATTRIBUTES Attributes, DWORD Protect, DWORD SizeHigh, DWORD SizeLow, LPCSTR Name);
HANDLE CreateFileMappingW(HANDLE File, LPSECURITY_ATTRIBUTES Attributes, DWORD Protect, DWORD SizeHigh, DWORD SizeLow, LPCWSTR Name);
BOOL FlushViewOfFile(LPCVOID Address, SIZE_T Size);
LPVOID MapViewOfFile(HANDLE Section, DWORD Access, DWORD OffsetHigh, DWORD OffsetLow, SIZE_T Size);
BOOL UnmapViewOfFile(LPCVOID Address);

/* ---- Time, which is the test's own. */
DWORD GetTickCount(void);
ULONGLONG GetTickCount64(void);
void GetSystemTimeAsFileTime(LPFILETIME Time);
void GetSystemTime(LPSYSTEMTIME Time);
void GetLocalTime(LPSYSTEMTIME Time);
BOOL FileTimeToSystemTime(const FILETIME *FileTime, LPSYSTEMTIME SystemTime);
BOOL FileTimeToLocalFileTime(const FILETIME *FileTime, LPFILETIME LocalTime);
BOOL QueryPerformanceCounter(PLARGE_INTEGER Counter);
BOOL QueryPerformanceFrequency(PLARGE_INTEGER Frequency);

/* ---- Memory and texts. */
#define HEAP_ZERO_MEMORY 8
#define LMEM_FIXED 0
#define LPTR 0x40
#define MEM_COMMIT 0x1000
#define MEM_RESERVE 0x2000
#define MEM_RELEASE 0x8000
#define PAGE_READWRITE 4
#define CP_ACP 0
#define CP_UTF8 65001
HANDLE GetProcessHeap(void);
LPVOID HeapAlloc(HANDLE Heap, DWORD Flags, SIZE_T Size);
BOOL HeapFree(HANDLE Heap, DWORD Flags, LPVOID Memory);
HLOCAL LocalAlloc(UINT Flags, SIZE_T Size);
HLOCAL LocalFree(HLOCAL Memory);
LPVOID VirtualAlloc(LPVOID Address, SIZE_T Size, DWORD Type, DWORD Protection);
BOOL VirtualFree(LPVOID Address, SIZE_T Size, DWORD Type);
int MultiByteToWideChar(UINT CodePage, DWORD Flags, LPCSTR Text, int Length, LPWSTR Room, int Size);
int WideCharToMultiByte(UINT CodePage, DWORD Flags, LPCWSTR Text, int Length, LPSTR Room, int Size, LPCSTR Default, LPBOOL UsedDefault);
int lstrlenA(LPCSTR Text);
int lstrlenW(LPCWSTR Text);
#define ZeroMemory(to, size) memset((to), 0, (size))
#define SecureZeroMemory ZeroMemory
#define FillMemory(to, size, byte) memset((to), (byte), (size))
#define CopyMemory(to, from, size) memcpy((to), (from), (size))
#define MoveMemory(to, from, size) memmove((to), (from), (size))
#define RtlZeroMemory ZeroMemory
#define RtlCopyMemory CopyMemory
#define RtlEqualMemory(one, other, size) (memcmp((one), (other), (size)) == 0)

/* ---- The console. */
#define FORMAT_MESSAGE_ALLOCATE_BUFFER 0x100
#define FORMAT_MESSAGE_FROM_SYSTEM 0x1000
#define FORMAT_MESSAGE_IGNORE_INSERTS 0x200
#define FORMAT_MESSAGE_FROM_HMODULE 0x800
#define CTRL_C_EVENT 0
typedef BOOL (*PHANDLER_ROUTINE)(DWORD Type);
BOOL SetConsoleCtrlHandler(PHANDLER_ROUTINE Handler, BOOL Add);
void OutputDebugStringA(LPCSTR Text);
void OutputDebugStringW(LPCWSTR Text);
DWORD FormatMessageA(DWORD Flags, LPCVOID Source, DWORD Message, DWORD Language, LPSTR Room, DWORD Size, va_list *Arguments);

int KzWprintf(const WCHAR *Format, ...);
char *gets_s(char *Room, size_t Size);
#define wprintf KzWprintf

#ifdef UNICODE
#define CreateEvent CreateEventW
#define CreateSemaphore CreateSemaphoreW
#define CreateMutex CreateMutexW
#define CreateFile CreateFileW
#define CreateFileTransacted CreateFileTransactedW
#define CreateDirectory CreateDirectoryW
#define RemoveDirectory RemoveDirectoryW
#define GetFileAttributes GetFileAttributesW
#define GetFileAttributesEx GetFileAttributesExW
#define SetFileAttributes SetFileAttributesW
#define MoveFile MoveFileW
#define MoveFileEx MoveFileExW
#define FindFirstFile FindFirstFileW
#define FindNextFile FindNextFileW
#define WIN32_FIND_DATA WIN32_FIND_DATAW
#define LPWIN32_FIND_DATA LPWIN32_FIND_DATAW
#define DeleteFile DeleteFileW
#define DeleteFileTransacted DeleteFileTransactedW
#define MoveFileTransacted MoveFileTransactedW
#define OutputDebugString OutputDebugStringW
#define lstrlen lstrlenW
#else
#define CreateEvent CreateEventA
#define CreateSemaphore CreateSemaphoreA
#define CreateMutex CreateMutexA
#define CreateFile CreateFileA
#define CreateFileTransacted CreateFileTransactedA
#define CreateDirectory CreateDirectoryA
#define RemoveDirectory RemoveDirectoryA
#define GetFileAttributes GetFileAttributesA
#define GetFileAttributesEx GetFileAttributesExA
#define SetFileAttributes SetFileAttributesA
#define MoveFile MoveFileA
#define MoveFileEx MoveFileExA
#define FindFirstFile FindFirstFileA
#define FindNextFile FindNextFileA
#define WIN32_FIND_DATA WIN32_FIND_DATAA
#define LPWIN32_FIND_DATA LPWIN32_FIND_DATAA
#define DeleteFile DeleteFileA
#define DeleteFileTransacted DeleteFileTransactedA
#define MoveFileTransacted MoveFileTransactedA
#define OutputDebugString OutputDebugStringA
#define lstrlen lstrlenA
#endif
#define FormatMessage FormatMessageA
#define TEXT(t) t
#define _T(t) t

#ifndef CONTAINING_RECORD
#define CONTAINING_RECORD(address, type, field) ((type *)((char *)(address)-offsetof(type, field)))
#endif
#ifndef ARRAYSIZE
#define ARRAYSIZE(a) (sizeof(a) / sizeof((a)[0]))
#endif
#ifndef NT_SUCCESS
#define NT_SUCCESS(status) ((NTSTATUS)(status) >= 0)
#endif
#ifndef max
#define max(a, b) ((a) > (b) ? (a) : (b))
#define min(a, b) ((a) < (b) ? (a) : (b))
#endif

KZ_END

#include "winioctl.h"

#endif
