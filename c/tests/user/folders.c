/* A program that makes, lists, moves and removes files and directories, by the calls that take names. */
#include <windows.h>
#include <stdio.h>

static void Say(const char *What, BOOL IsRight)
{
    printf("%s: %s, error %lu\n", What, IsRight ? "done" : "failed", IsRight ? 0 : GetLastError());
}

static void List(const char *Name)
{
    WIN32_FIND_DATAA data;
    HANDLE find = FindFirstFileA(Name, &data);

    if (find == INVALID_HANDLE_VALUE) {
        printf("%s: error %lu\n", Name, GetLastError());
        return;
    }
    do {
        printf("%s: %s, attributes %lx, size %lu\n", Name, data.cFileName, data.dwFileAttributes, data.nFileSizeLow);
    } while (FindNextFileA(find, &data));
    printf("%s: error %lu\n", Name, GetLastError());
    Say("FindClose", FindClose(find));
}

static void Write(const char *Name, const char *Text)
{
    DWORD done;
    HANDLE file = CreateFileA(Name, GENERIC_WRITE, 0, NULL, CREATE_ALWAYS, FILE_ATTRIBUTE_NORMAL, NULL);

    WriteFile(file, Text, (DWORD)strlen(Text), &done, NULL);
    CloseHandle(file);
}

int main(void)
{
    WIN32_FILE_ATTRIBUTE_DATA data;
    WIN32_FIND_DATAW wide;
    HANDLE find;
    DWORD attributes;

    Say("CreateDirectory", CreateDirectoryA("C:\\work", NULL));
    Say("once more", CreateDirectoryA("C:\\work", NULL));
    Write("C:\\work\\one", "1");
    Write("C:\\work\\two", "22");
    List("C:\\work\\*");
    List("C:\\work\\t*");
    List("C:\\work\\none*");
    List("C:\\nowhere\\*");
    Say("MoveFile onto another", MoveFileA("C:\\work\\one", "C:\\work\\two"));
    Say("MoveFileEx", MoveFileExA("C:\\work\\two", "C:\\work\\one", MOVEFILE_REPLACE_EXISTING));
    Say("to another volume", MoveFileW(L"C:\\work\\one", L"D:\\one"));
    Say("SetFileAttributes", SetFileAttributesW(L"C:\\work\\one", FILE_ATTRIBUTE_READONLY | FILE_ATTRIBUTE_HIDDEN));
    Say("GetFileAttributesEx", GetFileAttributesExA("C:\\work\\one", GetFileExInfoStandard, &data));
    printf("attributes %lx, size %lu\n", data.dwFileAttributes, data.nFileSizeLow);
    attributes = GetFileAttributesA("C:\\work\\two");
    printf("of none: %lx, error %lu\n", attributes, GetLastError());
    Say("RemoveDirectory", RemoveDirectoryA("C:\\work"));
    Say("of a file", RemoveDirectoryA("C:\\work\\one"));
    Say("DeleteFile", DeleteFileA("C:\\work\\one"));
    Say("SetFileAttributes", SetFileAttributesA("C:\\work\\one", FILE_ATTRIBUTE_NORMAL));
    Say("DeleteFile", DeleteFileA("C:\\work\\one"));
    Say("RemoveDirectory", RemoveDirectoryW(L"C:\\work"));
    find = FindFirstFileW(L"C:\\*", &wide);
    printf("the root: error %lu\n", find == INVALID_HANDLE_VALUE ? GetLastError() : 0);
    return 0;
}
