/* A program that has oplocks of a file, by a handle that doesn't wait, while another thread of it opens the file. For each check that holds it writes a letter to a file: y, or n. */
#include <windows.h>
#include <winioctl.h>

static HANDLE file, other, checks;

static void check(BOOL holds)
{
    DWORD count;
    WriteFile(checks, holds ? "y" : "n", 1, &count, NULL);
}

static DWORD WINAPI openAgain(void *unused)
{
    (void)unused;
    other = CreateFileA("C:\\cached", GENERIC_READ | GENERIC_WRITE, 7, NULL, OPEN_EXISTING, 0, NULL);
    return other != INVALID_HANDLE_VALUE;
}

static BOOL asks(DWORD code, OVERLAPPED *overlapped)
{
    DWORD count;
    return DeviceIoControl(file, code, NULL, 0, NULL, 0, &count, overlapped);
}

/* A batch oplock is broken by the other thread's create, which waits for what acknowledges that: a request for level 2, which the write breaks. */
static void batch(void)
{
    OVERLAPPED first = {0}, second = {0};
    DWORD bytes = 0;

    check(!asks(FSCTL_REQUEST_BATCH_OPLOCK, &first) && GetLastError() == ERROR_IO_PENDING);
    check(!GetOverlappedResult(file, &first, &bytes, FALSE) && GetLastError() == ERROR_IO_INCOMPLETE);
    HANDLE thread = CreateThread(NULL, 0, openAgain, NULL, 0, NULL);
    check(GetOverlappedResult(file, &first, &bytes, TRUE) && bytes == 7);
    check(WaitForSingleObject(thread, 0) == WAIT_TIMEOUT);
    check(!asks(FSCTL_OPLOCK_BREAK_ACKNOWLEDGE, &second) && GetLastError() == ERROR_IO_PENDING);
    check(WaitForSingleObject(thread, INFINITE) == WAIT_OBJECT_0 && other != INVALID_HANDLE_VALUE);
    check(WriteFile(other, "b", 1, &bytes, NULL) && bytes == 1);
    check(GetOverlappedResult(file, &second, &bytes, TRUE) && bytes == 8);
    CloseHandle(thread);
}

static void byLevels(void)
{
    REQUEST_OPLOCK_INPUT_BUFFER in = {REQUEST_OPLOCK_CURRENT_VERSION, sizeof in, OPLOCK_LEVEL_CACHE_READ | OPLOCK_LEVEL_CACHE_HANDLE, REQUEST_OPLOCK_INPUT_FLAG_REQUEST};
    REQUEST_OPLOCK_OUTPUT_BUFFER out = {0};
    OVERLAPPED overlapped = {0};
    DWORD bytes = 0;

    check(!DeviceIoControl(file, FSCTL_REQUEST_OPLOCK, &in, sizeof in, &out, sizeof out, NULL, &overlapped) && GetLastError() == ERROR_IO_PENDING);
    WriteFile(other, "c", 1, &bytes, NULL);
    check(GetOverlappedResult(file, &overlapped, &bytes, TRUE) && bytes == sizeof out && out.OriginalOplockLevel == in.RequestedOplockLevel && out.NewOplockLevel == 0 &&
          out.Flags == REQUEST_OPLOCK_OUTPUT_FLAG_ACK_REQUIRED);
    in.RequestedOplockLevel = 0;
    in.Flags = REQUEST_OPLOCK_INPUT_FLAG_ACK;
    check(DeviceIoControl(file, FSCTL_REQUEST_OPLOCK, &in, sizeof in, &out, sizeof out, &bytes, &overlapped));
    /* What is cancelled is held no more; and no handle that waits has any. */
    check(!asks(FSCTL_REQUEST_OPLOCK_LEVEL_2, &overlapped) && GetLastError() == ERROR_IO_PENDING);
    check(CancelIoEx(file, &overlapped) && !GetOverlappedResult(file, &overlapped, &bytes, TRUE) && GetLastError() == ERROR_OPERATION_ABORTED);
    check(!DeviceIoControl(other, FSCTL_REQUEST_OPLOCK_LEVEL_2, NULL, 0, NULL, 0, &bytes, NULL) && GetLastError() == ERROR_OPLOCK_NOT_GRANTED);
}

int main(void)
{
    checks = CreateFileA("C:\\checks", GENERIC_WRITE, 0, NULL, CREATE_NEW, 0, NULL);
    file = CreateFileA("C:\\cached", GENERIC_READ | GENERIC_WRITE, 7, NULL, CREATE_NEW, FILE_FLAG_OVERLAPPED, NULL);
    batch();
    byLevels();
    CloseHandle(other);
    CloseHandle(file);
    CloseHandle(checks);
    return 0;
}
