/* A program that looks for files with each kind of pattern, and compares what it finds with what Windows lists, as Wine's tests of FindFirstFile have it. All names fit MS-DOS, so that none has
 * another one beside it that a pattern might mean. */
#include <windows.h>
#include <stdio.h>
#include <string.h>

static const struct {
    const char *Pattern, *Names;
} gRows[] = {
    {"*.*", ". .. a a.a aa aaa aaaa"}, {"*", ". .. a a.a aa aaa aaaa"}, {"*.", ". .. a aa aaa aaaa"}, {"*..", ". .. a aa aaa aaaa"},
    {"*. ", ". .. a a.a aa aaa aaaa"}, {"* .", ". .. a aa aaa aaaa"}, {"* . ", ". .. a a.a aa aaa aaaa"}, {".*", ". .."}, {".*.", ". .."}, {".*.*", ". .."},
    {"..*", ". .."}, {"**", ". .. a a.a aa aaa aaaa"}, {"**.", ". .. a a.a aa aaa aaaa"}, {"*.*.", ". .. a a.a aa aaa aaaa"},
    {"*.*.*", ". .. a a.a aa aaa aaaa"}, {"*..*", ". .."}, {"a.*", "a a.a"}, {"a.", "a"}, {"a", "a"}, {"a.b", ""}, {"a?", "a aa"}, {"?", ". .. a"},
    {"?.", ". .. a"}, {"?\?.", ". .. a aa"}, {"?\??.", ". .. a aa aaa"}, {"?.?\?.", ". .. a a.a"}, {"a.?", "a a.a"}, {"a.b.", ""}, {"*.txt", ""},
    {"*.?", ". .. a a.a aa aaa aaaa"}, {"a*.", "a aa aaa aaaa"}, {"a*.b*", ""}, {"a b", ""}, {"a ", "a"}, {"*?", ". .. a a.a aa aaa aaaa"},
    {"?*", ". .. a a.a aa aaa aaaa"}, {"*a.", "a a.a aa aaa aaaa"}, {"*.a.", "a.a"}, {"<", ". .. a aa aaa aaaa"}, {"<.", ". .. a aa aaa aaaa"},
    {">", ". .. a"}, {">.", ". .. a"}, {"\"", ". .."}, {"a\".*", "a"}, {".<", ". .."}, {"<.<", ". .. a.a"}, {"<.<.<", ""}, {"<<", ". .. a a.a aa aaa aaaa"},
    {"..<", ""}, {">.>>.", ". .. a.a"}, {" *..", ""}, {" <..", ""}, {"* ..", ". .. a aa aaa aaaa"}, {"*. .", ". .. a aa aaa aaaa"},
    {"*.. ", ". .. a a.a aa aaa aaaa"}, {"..* ", ". .."}, {"..< ", ""}, {".<.", ". .."}, {".<.<", ""}, {"< .", ". .. a aa aaa aaaa"},
    {"< . ", ". .. a aa aaa aaaa"}, {"< ..", ". .. a aa aaa aaaa"}, {"<. ", ". .. a aa aaa aaaa"}, {"<. .", ". .. a aa aaa aaaa"},
    {"<..", ". .. a aa aaa aaaa"}, {"<.. ", ". .. a aa aaa aaaa"}, {"<..<", ""}, {"<.<.", ". .. a.a"}, {"<<.", ". .. a a.a aa aaa aaaa"}, {">. ", ". .. a"},
    {">>.", ". .. a aa"}, {">>. ", ". .. a aa"}, {">>>.", ". .. a aa aaa"}, {"?. ", ". .. a"}, {"?\?. ", ". .. a aa"},
};

/* What is found, with blanks between; the error's number if nothing is. */
static void Find(const char *Path, char *Room, size_t Size)
{
    WIN32_FIND_DATAA data;
    HANDLE find = FindFirstFileA(Path, &data);
    size_t used = 0;

    if (find == INVALID_HANDLE_VALUE) {
        snprintf(Room, Size, "%u", (unsigned)GetLastError());
        return;
    }
    do {
        used += (size_t)snprintf(Room + used, Size - used, "%s%s", used ? " " : "", data.cFileName);
    } while (FindNextFileA(find, &data));
    FindClose(find);
}

static void Say(const char *Path)
{
    char found[200];

    Find(Path, found, sizeof(found));
    printf("%s: %s\n", Path, found);
}

/* The errors of names, and of what isn't there; a name's ends, and dots in a path, are nothing. */
static void Others(void)
{
    Say("C:\\search\\.");
    Say("C:\\search\\deep\\..");
    Say("C:\\search\\..\\search\\.\\a.a. .");
    Say("C:/search//aa");
    Say("\\\\?\\C:\\search\\aa");
    Say("C:\\search\\");
    Say("C:\\search\\none");
    Say("C:\\nowhere\\*");
}

/* A file's letters below the blank; those of a stream may be so. */
static void Low(const WCHAR *Name)
{
    HANDLE file = CreateFileW(Name, GENERIC_WRITE, 0, NULL, CREATE_ALWAYS, 0, NULL);

    printf("%u\n", file == INVALID_HANDLE_VALUE ? (unsigned)GetLastError() : 0);
    CloseHandle(file);
}

int main(void)
{
    static const char *const names[] = {"a", "a.a", "aa", "aaa", "aaaa"};
    char path[200], found[200];
    size_t at, count = sizeof(gRows) / sizeof(gRows[0]), differ = 0;

    CreateDirectoryA("C:\\search", NULL);
    for (at = 0; at < sizeof(names) / sizeof(names[0]); at++) {
        snprintf(path, sizeof(path), "C:\\search\\%s", names[at]);
        CloseHandle(CreateFileA(path, GENERIC_WRITE, 0, NULL, CREATE_NEW, 0, NULL));
    }
    for (at = 0; at < count; at++) {
        snprintf(path, sizeof(path), "C:\\search\\%s", gRows[at].Pattern);
        Find(path, found, sizeof(found));
        if (strcmp(found, gRows[at].Names[0] ? gRows[at].Names : "2") != 0) {
            differ++;
            printf("%s: %s, not %s\n", gRows[at].Pattern, found, gRows[at].Names);
        }
    }
    printf("%u rows, %u differ\n", (unsigned)count, (unsigned)differ);
    CreateDirectoryA("C:\\search\\deep", NULL);
    Others();
    Low(L"C:\\search\\a\x01" L"b");
    Low(L"C:\\search\\a\x1f" L"b");
    Low(L"C:\\search\\a:\x05\x1f");
    Low(L"C:\\search\\\xd800");
    return 0;
}
