/* A program beside drawn.c: `start program ACTS`, a letter and a digit for each act, as draw.py names them; after a slash the acts of a second thread. It prints what each thread saw. */
#include <windows.h>
#include <fltUser.h>

typedef struct _MESSAGE {
    FILTER_MESSAGE_HEADER Header;
    DWORD Number;
} MESSAGE;

typedef struct _RUN {
    DWORD Number, Seen;
} RUN;

static HANDLE gPort = INVALID_HANDLE_VALUE, gEvents[2], gMutex;
static CRITICAL_SECTION gSections[2];

static void See(RUN *Run, DWORD Value)
{
    Run->Seen = Run->Seen * 31 + Value;
}

static void Act(RUN *Run, char Letter, int X)
{
    MESSAGE message;
    DWORD number = Run->Number, bytes;

    switch (Letter) {
    case 'c':
        See(Run, (DWORD)FilterConnectCommunicationPort(L"\\DrawnPort", 0, NULL, 0, NULL, &gPort));
        break;
    case 'm':
        See(Run, (DWORD)FilterSendMessage(gPort, &number, sizeof(number), NULL, 0, &bytes));
        break;
    case 'g':
        See(Run, (DWORD)FilterGetMessage(gPort, &message.Header, sizeof(message), NULL));
        break;
    case 'd':
        CloseHandle(gPort);
        break;
    case 'e':
        SetEvent(gEvents[X]);
        break;
    case 'r':
        ResetEvent(gEvents[X]);
        break;
    case 'w':
        See(Run, WaitForSingleObject(gEvents[X], 10));
        break;
    case 'x':
        See(Run, WaitForSingleObject(gMutex, 10));
        break;
    case 'X':
        See(Run, (DWORD)ReleaseMutex(gMutex));
        break;
    case 'l':
        EnterCriticalSection(&gSections[X]);
        break;
    case 'L':
        LeaveCriticalSection(&gSections[X]);
        break;
    case 's':
        Sleep(1);
        break;
    }
}

static DWORD CarryOut(LPVOID Acts)
{
    static LONG last;
    RUN run = {.Number = (DWORD)InterlockedIncrement(&last), .Seen = 7};

    for (const char *at = Acts; at[0] != 0 && at[0] != '/'; at += 2) {
        Act(&run, at[0], (at[1] - '0') & 1);
    }
    printf("%s saw %u\n", (char *)Acts, run.Seen);
    return 0;
}

int main(int count, char **words)
{
    char *second = count > 1 ? strchr(words[1], '/') : NULL;
    HANDLE thread = NULL;

    for (int at = 0; at < 2; at++) {
        gEvents[at] = CreateEvent(NULL, at == 0, FALSE, NULL);
        InitializeCriticalSection(&gSections[at]);
    }
    gMutex = CreateMutex(NULL, FALSE, NULL);
    if (second != NULL) {
        thread = CreateThread(NULL, 0, CarryOut, second + 1, 0, NULL);
    }
    if (count > 1) {
        CarryOut(words[1]);
    }
    if (thread != NULL) {
        WaitForSingleObject(thread, INFINITE);
    }
    return 0;
}
