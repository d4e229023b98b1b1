/* A program that asks for what services ask for: slim locks, locks of bytes, notices of a directory, other processes, the registry, a volume, and the service control manager. */
#include <windows.h>
#include <winioctl.h>
#include <stdio.h>

static SRWLOCK gLock = SRWLOCK_INIT;
static LONG gCount;

static DWORD WINAPI Count(LPVOID Parameter)
{
    AcquireSRWLockExclusive(&gLock);
    gCount += (LONG)(LONG_PTR)Parameter;
    ReleaseSRWLockExclusive(&gLock);
    return 0;
}

static void Locks(void)
{
    HANDLE threads[2];

    AcquireSRWLockShared(&gLock);
    printf("shared once more: %d, alone: %d\n", TryAcquireSRWLockShared(&gLock), TryAcquireSRWLockExclusive(&gLock));
    ReleaseSRWLockShared(&gLock);
    threads[0] = CreateThread(NULL, 0, Count, (LPVOID)(LONG_PTR)1, 0, NULL);
    threads[1] = CreateThread(NULL, 0, Count, (LPVOID)(LONG_PTR)2, 0, NULL);
    ReleaseSRWLockShared(&gLock);
    WaitForMultipleObjects(2, threads, TRUE, INFINITE);
    printf("counted: %ld\n", (long)gCount);
    CloseHandle(threads[0]);
    CloseHandle(threads[1]);
}

static void Ranges(void)
{
    HANDLE one = CreateFileA("C:\\ranges", GENERIC_READ | GENERIC_WRITE, FILE_SHARE_READ | FILE_SHARE_WRITE, NULL, CREATE_ALWAYS, 0, NULL);
    HANDLE two = CreateFileA("C:\\ranges", GENERIC_READ | GENERIC_WRITE, FILE_SHARE_READ | FILE_SHARE_WRITE, NULL, OPEN_EXISTING, 0, NULL);
    OVERLAPPED place = {0};
    BOOL first, second;

    first = LockFileEx(one, LOCKFILE_EXCLUSIVE_LOCK | LOCKFILE_FAIL_IMMEDIATELY, 0, 4, 0, &place);
    second = LockFileEx(two, LOCKFILE_FAIL_IMMEDIATELY, 0, 4, 0, &place);
    printf("locked: %d, by another: %d, error %lu\n", first, second, GetLastError());
    first = UnlockFileEx(one, 0, 4, 0, &place);
    second = LockFile(two, 0, 0, 4, 0);
    printf("unlocked: %d, and locked: %d\n", first, second);
    first = UnlockFile(two, 0, 0, 4, 0);
    second = UnlockFile(two, 0, 0, 4, 0);
    printf("unlocked: %d, twice: %d, error %lu\n", first, second, GetLastError());
    CloseHandle(one);
    CloseHandle(two);
}

static void Notices(void)
{
    HANDLE directory, file;
    OVERLAPPED overlapped = {0};
    DWORD room[64], bytes = 0;
    BOOL isRight;
    PFILE_NOTIFY_INFORMATION change = (PFILE_NOTIFY_INFORMATION)room;

    directory = CreateFileA("C:\\", FILE_LIST_DIRECTORY, FILE_SHARE_READ | FILE_SHARE_WRITE | FILE_SHARE_DELETE, NULL, OPEN_EXISTING, FILE_FLAG_BACKUP_SEMANTICS | FILE_FLAG_OVERLAPPED, NULL);
    overlapped.hEvent = CreateEventW(NULL, TRUE, FALSE, NULL);
    isRight = ReadDirectoryChangesW(directory, room, sizeof(room), FALSE, FILE_NOTIFY_CHANGE_FILE_NAME, NULL, &overlapped, NULL);
    printf("watched: %d, before a change: %lu\n", isRight, (unsigned long)WaitForSingleObject(overlapped.hEvent, 0));
    file = CreateFileA("C:\\new.txt", GENERIC_WRITE, 0, NULL, CREATE_NEW, 0, NULL);
    CloseHandle(file);
    printf("behind it: %lu, ", (unsigned long)WaitForSingleObject(overlapped.hEvent, INFINITE));
    isRight = GetOverlappedResult(directory, &overlapped, &bytes, FALSE);
    printf("%d, %lu bytes, action %lu, %.*ls\n", isRight, (unsigned long)bytes, (unsigned long)change->Action, (int)(change->FileNameLength / sizeof(WCHAR)), change->FileName);
    ResetEvent(overlapped.hEvent);
    ReadDirectoryChangesW(directory, room, sizeof(room), FALSE, FILE_NOTIFY_CHANGE_FILE_NAME, NULL, &overlapped, NULL);
    CloseHandle(directory);
    CloseHandle(overlapped.hEvent);
}

static void Processes(void)
{
    HANDLE process = OpenProcess(PROCESS_TERMINATE | PROCESS_VM_READ, FALSE, 500);
    BOOL isEnded = TerminateProcess(process, 0);

    printf("process %lu: ended %d, error %lu\n", (unsigned long)GetProcessId(process), isEnded, GetLastError());
    CloseHandle(process);
    process = OpenProcess(PROCESS_TERMINATE, FALSE, 600);
    printf("process %lu: ended %d\n", (unsigned long)GetProcessId(process), TerminateProcess(process, 0));
    CloseHandle(process);
    process = OpenProcess(PROCESS_TERMINATE, FALSE, 600);
    printf("once more: %s, error %lu\n", process != NULL ? "opened" : "not opened", GetLastError());
}

static void Registry(void)
{
    WCHAR text[20];
    DWORD type, length = sizeof(text), disposition = 0, number = 5;
    HKEY key, below;
    LSTATUS status = RegCreateKeyExW(HKEY_LOCAL_MACHINE, L"SOFTWARE\\Tool", 0, NULL, 0, KEY_ALL_ACCESS, NULL, &key, &disposition);

    printf("created: %ld, %lu\n", (long)status, (unsigned long)disposition);
    printf("set: %ld, ", (long)RegSetValueExW(key, L"Text", 0, REG_SZ, (const BYTE *)L"one", 4 * sizeof(WCHAR)));
    printf("%ld\n", (long)RegSetValueExW(key, L"Number", 0, REG_DWORD, (const BYTE *)&number, 4));
    status = RegQueryValueExW(key, L"Text", NULL, &type, (BYTE *)text, &length);
    printf("query: %ld, type %lu, %lu bytes, %ls\n", (long)status, (unsigned long)type, (unsigned long)length, text);
    length = 2;
    printf("too short: %ld, ", (long)RegQueryValueExW(key, L"Text", NULL, NULL, (BYTE *)text, &length));
    printf("%lu bytes\n", (unsigned long)length);
    printf("deleted: %ld, ", (long)RegDeleteValueW(key, L"Number"));
    printf("then %ld\n", (long)RegQueryValueExW(key, L"Number", NULL, NULL, NULL, NULL));
    printf("below it: %ld\n", (long)RegOpenKeyExW(key, L"None", 0, KEY_READ, &below));
    RegCloseKey(key);
}

static void Volume(void)
{
    HANDLE volume = CreateFileA("\\\\.\\C:", GENERIC_READ, FILE_SHARE_READ | FILE_SHARE_WRITE, NULL, OPEN_EXISTING, 0, NULL);
    DWORD done;

    printf("volume: %s, locked %d", volume != INVALID_HANDLE_VALUE ? "opened" : "not opened", DeviceIoControl(volume, FSCTL_LOCK_VOLUME, NULL, 0, NULL, 0, &done, NULL));
    printf(", unlocked %d\n", DeviceIoControl(volume, FSCTL_UNLOCK_VOLUME, NULL, 0, NULL, 0, &done, NULL));
    CloseHandle(volume);
}

int main(void)
{
    Locks();
    Ranges();
    Notices();
    Processes();
    Registry();
    Volume();
    printf("services: %s, ", OpenSCManagerW(NULL, NULL, 1) != NULL ? "there" : "none");
    printf("error %lu\n", GetLastError());
    return 0;
}
