/* The program of the scanner by sections: each of its threads takes a notice, maps the section that it is given, and says whether a foul word is in it. */
#include <windows.h>
#include <fltUser.h>

#include "../datascan.h"

#define MOST_THREADS 4

typedef struct _NOTICE {
    FILTER_MESSAGE_HEADER Header;
    DATASCAN_NOTICE Notice;
} NOTICE;

static BOOLEAN IsFoul(const UCHAR *Bytes, LONGLONG Size)
{
    for (LONGLONG at = 0; at + 4 <= Size; at++) {
        if (memcmp(Bytes + at, "foul", 4) == 0) {
            return TRUE;
        }
    }
    return FALSE;
}

static BOOLEAN Look(const DATASCAN_SECTION *Section)
{
    const UCHAR *view;
    BOOLEAN is;

    if (Section->Size == 0) {
        return FALSE;
    }
    view = MapViewOfFile(Section->Section, FILE_MAP_READ, 0, 0, 0);
    if (view == NULL) {
        return FALSE;
    }
    is = IsFoul(view, Section->Size);
    UnmapViewOfFile(view);
    return is;
}

static void Scan(HANDLE Port, ULONGLONG Id)
{
    DATASCAN_COMMAND command = {DataScanOpen, FALSE, Id};
    DATASCAN_SECTION section;
    DWORD returned;

    if (SUCCEEDED(FilterSendMessage(Port, &command, sizeof(command), &section, sizeof(section), &returned))) {
        command.IsFoul = Look(&section);
        CloseHandle(section.Section);
    }
    command.Kind = DataScanClose;
    FilterSendMessage(Port, &command, sizeof(command), NULL, 0, &returned);
}

static DWORD Work(LPVOID Parameter)
{
    NOTICE notice;

    while (SUCCEEDED(FilterGetMessage(Parameter, &notice.Header, sizeof(notice), NULL))) {
        Scan(Parameter, notice.Notice.Id);
    }
    return 0;
}

int main(int argc, char *argv[])
{
    HANDLE port, threads[MOST_THREADS];
    DWORD count = argc > 1 ? (DWORD)(argv[1][0] - '0') : 1;

    if (count < 1 || count > MOST_THREADS || FAILED(FilterConnectCommunicationPort(DATASCAN_PORT, 0, NULL, 0, NULL, &port))) {
        printf("no port\n");
        return 1;
    }
    for (DWORD at = 0; at < count; at++) {
        threads[at] = CreateThread(NULL, 0, Work, port, 0, NULL);
    }
    WaitForMultipleObjects(count, threads, TRUE, INFINITE);
    CloseHandle(port);
    return 0;
}
