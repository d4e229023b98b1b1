/* A program that says what the event of an overlapped structure is once a message is asked for, and where a call fails at once, and which errors two creates leave. */
#include <windows.h>
#include <fltUser.h>
#include <stdio.h>

int main(void)
{
    struct {
        FILTER_MESSAGE_HEADER header;
        ULONG body;
    } message;
    OVERLAPPED overlapped = {0};
    HANDLE port, file;
    HRESULT result;
    DWORD count = 0;
    CHAR room[8];

    if (FAILED(FilterConnectCommunicationPort(L"\\Statements", 0, NULL, 0, NULL, &port))) {
        return 1;
    }
    overlapped.hEvent = CreateEventW(NULL, TRUE, TRUE, NULL);
    result = FilterGetMessage(port, &message.header, sizeof message, &overlapped);
    printf("13 a message is asked for with an event that is set: %08lx, the event is %s\n", (unsigned long)result, WaitForSingleObject(overlapped.hEvent, 0) == WAIT_TIMEOUT ? "reset" : "set");
    CancelIo(port);
    file = CreateFileA("C:\\busy", GENERIC_READ, 0, NULL, OPEN_EXISTING, 0, NULL);
    printf("14 STATUS_DEVICE_BUSY: %s, error %lu\n", file == INVALID_HANDLE_VALUE ? "not opened" : "opened", GetLastError());
    CloseHandle(CreateFileA("C:\\kept", GENERIC_WRITE, 0, NULL, CREATE_NEW, 0, NULL));
    file = CreateFileA("C:\\kept", GENERIC_WRITE, 0, NULL, CREATE_ALWAYS, 0, NULL);
    printf("15 CREATE_ALWAYS of a file that is there: %s, error %lu\n", file == INVALID_HANDLE_VALUE ? "not opened" : "opened", GetLastError());
    CloseHandle(file);
    /* By a handle that doesn't wait: a write at the end, and a read past it, which fails without ever pending. */
    file = CreateFileA("C:\\kept", GENERIC_READ | GENERIC_WRITE, 0, NULL, OPEN_EXISTING, FILE_FLAG_OVERLAPPED, NULL);
    for (int at = 0; at < 2; at++) {
        overlapped.Offset = overlapped.OffsetHigh = 0xffffffff;
        BOOL isWritten = WriteFile(file, "abc", 3, &count, &overlapped);
        printf("16 a write at the end: %d, %lu bytes, file of %lu\n", isWritten, count, GetFileSize(file, NULL));
    }
    overlapped.Offset = 6;
    overlapped.OffsetHigh = 0;
    SetEvent(overlapped.hEvent);
    BOOL isRead = ReadFile(file, room, sizeof room, &count, &overlapped);
    printf("17 a read past the end: %d, error %lu, status %lx, the event is %s\n", isRead, GetLastError(), (unsigned long)overlapped.Internal, WaitForSingleObject(overlapped.hEvent, 0) == WAIT_TIMEOUT ? "reset" : "set");
    overlapped.Offset = 4;
    isRead = ReadFile(file, room, sizeof room, &count, &overlapped);
    printf("18 a read up to the end: %d, %lu bytes, status %lx, the event is %s\n", isRead, count, (unsigned long)overlapped.Internal, WaitForSingleObject(overlapped.hEvent, 0) == WAIT_TIMEOUT ? "reset" : "set");
    /* A lock that another handle has is waited for, and taken as that is given up. */
    HANDLE other = CreateFileA("C:\\kept", GENERIC_READ, FILE_SHARE_READ | FILE_SHARE_WRITE, NULL, OPEN_EXISTING, 0, NULL);
    printf("19 a second handle of a file that isn't shared: error %lu\n", other == INVALID_HANDLE_VALUE ? GetLastError() : 0);
    CloseHandle(file);
    file = CreateFileA("C:\\kept", GENERIC_READ, FILE_SHARE_READ, NULL, OPEN_EXISTING, FILE_FLAG_OVERLAPPED, NULL);
    other = CreateFileA("C:\\kept", GENERIC_READ, FILE_SHARE_READ, NULL, OPEN_EXISTING, 0, NULL);
    LockFile(other, 0, 0, 4, 0);
    overlapped.Offset = 0;
    BOOL isLocked = LockFileEx(file, LOCKFILE_EXCLUSIVE_LOCK | LOCKFILE_FAIL_IMMEDIATELY, 0, 2, 0, &overlapped);
    printf("20 a lock at once: %d, error %lu\n", isLocked, GetLastError());
    isLocked = LockFileEx(file, LOCKFILE_EXCLUSIVE_LOCK, 0, 2, 0, &overlapped);
    printf("21 a lock that waits: %d, error %lu, ", isLocked, GetLastError());
    printf("the event is %s", WaitForSingleObject(overlapped.hEvent, 0) == WAIT_TIMEOUT ? "reset" : "set");
    UnlockFile(other, 0, 0, 4, 0);
    printf(", then %s, ", WaitForSingleObject(overlapped.hEvent, INFINITE) == WAIT_OBJECT_0 ? "set" : "reset");
    printf("status %lx\n", (unsigned long)overlapped.Internal);
    CloseHandle(other);
    CloseHandle(file);
    CloseHandle(overlapped.hEvent);
    CloseHandle(port);
    return 0;
}
