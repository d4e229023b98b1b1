/* The log program of the spy: a thread asks for records and prints them, and commands are read from the console: `a VOLUME` attaches, `d VOLUME` detaches, `l` lists, `q` ends it. */
#include <windows.h>
#include <fltUser.h>

#include "../spy.h"

#define INTERVAL 100

typedef struct _LOG_CONTEXT {
    HANDLE Port;
    HANDLE Stop;
} LOG_CONTEXT, *PLOG_CONTEXT;

static const char *NameOf(ULONG Major)
{
    switch (Major) {
    case 0x00:
        return "create";
    case 0x03:
        return "read";
    case 0x04:
        return "write";
    case 0x06:
        return "set";
    case 0x12:
        return "cleanup";
    default:
        return "?";
    }
}

/* All that there is; false where the filter is gone. */
static BOOL PrintLog(HANDLE Port)
{
    SPY_RECORD records[8];
    SPY_REQUEST request = {SpyGetLog};
    DWORD bytes;
    HRESULT answer;

    for (;;) {
        answer = FilterSendMessage(Port, &request, sizeof(request), records, sizeof(records), &bytes);
        if (answer == HRESULT_FROM_WIN32(ERROR_NO_MORE_ITEMS)) {
            return TRUE;
        }
        if (FAILED(answer)) {
            return FALSE;
        }
        for (DWORD at = 0; at < bytes / sizeof(SPY_RECORD); at++) {
            printf("spylog: %u %s by %u of %ws: 0x%08x, %I64u\n", records[at].Number, NameOf(records[at].MajorFunction), records[at].ProcessId,
                   records[at].Name, records[at].Status, records[at].Information);
        }
    }
}

static DWORD Log(LPVOID Parameter)
{
    PLOG_CONTEXT context = Parameter;

    while (PrintLog(context->Port)) {
        if (WaitForSingleObject(context->Stop, INTERVAL) == WAIT_OBJECT_0) {
            return 0;
        }
    }
    printf("spylog: the filter is gone\n");
    return 1;
}

static void List(void)
{
    UCHAR room[512];
    PINSTANCE_FULL_INFORMATION one = (PINSTANCE_FULL_INFORMATION)room;
    HANDLE find;
    DWORD bytes;
    HRESULT answer = FilterInstanceFindFirst(L"spy", InstanceFullInformation, one, sizeof(room), &bytes, &find);

    if (FAILED(answer)) {
        printf("spylog: no instance, 0x%08x\n", answer);
        return;
    }
    do {
        printf("spylog: %.*ws at %.*ws on %.*ws\n", one->InstanceNameLength / 2, (PWSTR)(room + one->InstanceNameBufferOffset), one->AltitudeLength / 2,
               (PWSTR)(room + one->AltitudeBufferOffset), one->VolumeNameLength / 2, (PWSTR)(room + one->VolumeNameBufferOffset));
        answer = FilterInstanceFindNext(find, InstanceFullInformation, one, sizeof(room), &bytes);
    } while (SUCCEEDED(answer));
    FilterInstanceFindClose(find);
}

static void Attach(const char *Name)
{
    WCHAR volume[64], instance[INSTANCE_NAME_MAX_CHARS + 1];
    HRESULT answer;

    MultiByteToWideChar(CP_ACP, 0, Name, -1, volume, ARRAYSIZE(volume));
    answer = FilterAttachAtAltitude(L"spy", volume, L"385200", NULL, ARRAYSIZE(instance), instance);
    if (SUCCEEDED(answer)) {
        printf("spylog: attached as %ws\n", instance);
    } else {
        printf("spylog: not attached, 0x%08x\n", answer);
    }
}

static void Detach(const char *Name)
{
    WCHAR volume[64];
    HRESULT answer;

    MultiByteToWideChar(CP_ACP, 0, Name, -1, volume, ARRAYSIZE(volume));
    answer = FilterDetach(L"spy", volume, NULL);
    printf("spylog: %s, 0x%08x\n", SUCCEEDED(answer) ? "detached" : "not detached", answer);
}

static void Commands(void)
{
    char line[80];

    while (gets_s(line, sizeof(line)) != NULL && line[0] != 'q') {
        if (line[0] == 'a' && line[1] == ' ') {
            Attach(line + 2);
        } else if (line[0] == 'd' && line[1] == ' ') {
            Detach(line + 2);
        } else if (line[0] == 'l') {
            List();
        } else {
            printf("spylog: what is %s?\n", line);
        }
    }
}

int main(void)
{
    LOG_CONTEXT context;
    HANDLE thread;
    HRESULT answer = FilterConnectCommunicationPort(SPY_PORT, 0, NULL, 0, NULL, &context.Port);

    if (FAILED(answer)) {
        printf("spylog: not connected, 0x%08x\n", answer);
        return 1;
    }
    context.Stop = CreateEvent(NULL, TRUE, FALSE, NULL);
    thread = CreateThread(NULL, 0, Log, &context, 0, NULL);
    Commands();
    SetEvent(context.Stop);
    WaitForSingleObject(thread, INFINITE);
    CloseHandle(thread);
    CloseHandle(context.Stop);
    CloseHandle(context.Port);
    printf("spylog: ends\n");
    return 0;
}
