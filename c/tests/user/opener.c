/* A program that opens files in the ways of CreateFile, and says what came of each. */
#include <windows.h>
#include <stdio.h>

static HANDLE Open(const char *Name, DWORD Access, DWORD Share, DWORD Disposition, DWORD Flags)
{
    HANDLE file;

    SetLastError(99);
    file = CreateFileA(Name, Access, Share, NULL, Disposition, Flags, NULL);
    printf("%s: %s, error %lu\n", Name, file == INVALID_HANDLE_VALUE ? "not opened" : "opened", GetLastError());
    return file;
}

int main(void)
{
    char bytes[8];
    DWORD done;
    BOOL isRead;
    HANDLE one, two;

    one = Open("C:\\p", GENERIC_WRITE, FILE_SHARE_READ, CREATE_ALWAYS, FILE_ATTRIBUTE_NORMAL | FILE_FLAG_SEQUENTIAL_SCAN);
    WriteFile(one, "abcd", 4, &done, NULL);
    isRead = ReadFile(one, bytes, 4, &done, NULL);
    printf("read: %d, error %lu\n", isRead, GetLastError());
    Open("C:\\p", GENERIC_READ, FILE_SHARE_READ, OPEN_EXISTING, 0);
    two = Open("C:\\p", GENERIC_READ, FILE_SHARE_READ | FILE_SHARE_WRITE, OPEN_EXISTING, FILE_FLAG_NO_BUFFERING | FILE_FLAG_OVERLAPPED);
    CloseHandle(one);
    CloseHandle(two);
    one = Open("C:\\p", GENERIC_READ | GENERIC_WRITE, 0, TRUNCATE_EXISTING, 0);
    printf("size %lu\n", GetFileSize(one, NULL));
    CloseHandle(one);
    CloseHandle(Open("C:\\p", GENERIC_ALL, 0, OPEN_ALWAYS, FILE_FLAG_DELETE_ON_CLOSE | FILE_FLAG_WRITE_THROUGH | FILE_FLAG_RANDOM_ACCESS));
    Open("C:\\p", 0, 7, OPEN_EXISTING, FILE_FLAG_BACKUP_SEMANTICS);
    CloseHandle(Open("C:\\p", GENERIC_READ, 0, CREATE_NEW, FILE_ATTRIBUTE_READONLY));
    Open("C:\\p", GENERIC_WRITE, 7, OPEN_EXISTING, 0);
    return 0;
}
