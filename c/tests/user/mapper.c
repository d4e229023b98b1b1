/* Maps a file: reads it in a view, changes it there, and flushes; a file under a section isn't cut. Each line says what came of a step. */
#include <windows.h>
#include <stdio.h>

static HANDLE Open(const char *Name)
{
    return CreateFileA(Name, GENERIC_READ | GENERIC_WRITE, FILE_SHARE_READ | FILE_SHARE_WRITE | FILE_SHARE_DELETE, NULL, OPEN_EXISTING, FILE_ATTRIBUTE_NORMAL, NULL);
}

static int Cut(HANDLE File, LONG Size)
{
    SetFilePointer(File, Size, NULL, FILE_BEGIN);
    return SetEndOfFile(File) ? 0 : (int)GetLastError();
}

int main(int argc, char **argv)
{
    HANDLE file = Open(argv[1]), section = CreateFileMappingA(file, NULL, PAGE_READWRITE, 0, 0, NULL);
    char *view, *copy;

    if (section == NULL) {
        printf("no section: %lu\n", GetLastError());
        return 1;
    }
    view = MapViewOfFile(section, FILE_MAP_READ | FILE_MAP_WRITE, 0, 0, 0);
    copy = MapViewOfFile(section, FILE_MAP_COPY, 0, 0, 0);
    if (view == NULL || copy == NULL) {
        printf("no view: %lu\n", GetLastError());
        return 1;
    }
    printf("mapped: %.5s\n", view);
    view[0] = 'V';
    copy[1] = 'C';
    if (argc > 2) {
        printf("flushed: %d\n", FlushViewOfFile(view, 0));
    }
    printf("cut: %d\n", Cut(file, 0));
    CloseHandle(file);
    CloseHandle(section);
    printf("view: %.5s\n", view);
    UnmapViewOfFile(copy);
    if (argc == 2) {
        UnmapViewOfFile(view);
    }
    return 0;
}
