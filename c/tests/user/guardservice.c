/* The guardian's service: a thread answers its questions, by a list of images and of digests; the main thread takes commands: counts, quit. */
#include <windows.h>
#include <fltUser.h>
#include <stdio.h>

#include "../drivers/guardian.h"

typedef struct _QUESTION {
    FILTER_MESSAGE_HEADER Header;
    GUARDIAN_QUESTION Body;
} QUESTION;

typedef struct _ANSWER {
    FILTER_REPLY_HEADER Header;
    GUARDIAN_VERDICT Body;
} ANSWER;

/* SHA-256 of `evil`. */
static const BYTE gBad[32] = {0xb5, 0xc1, 0xfb, 0x2e, 0xfc, 0x6d, 0x6b, 0x46, 0x74, 0xc2, 0xfd, 0xcc, 0x48, 0xce, 0x01, 0xb4,
                              0x3a, 0x3b, 0x7c, 0x03, 0x76, 0x3c, 0x0c, 0x33, 0x55, 0xde, 0x00, 0x99, 0xee, 0x0f, 0x8c, 0x73};
static HANDLE gPort;

static BOOL EndsWith(const WCHAR *Text, const WCHAR *End)
{
    size_t text = wcslen(Text), end = wcslen(End);

    return text >= end && wcscmp(Text + text - end, End) == 0;
}

static DWORD WINAPI Serve(LPVOID Parameter)
{
    QUESTION question;
    ANSWER answer;

    (void)Parameter;
    while (SUCCEEDED(FilterGetMessage(gPort, &question.Header, sizeof(question), NULL))) {
        memset(&answer, 0, sizeof(answer));
        answer.Header.MessageId = question.Header.MessageId;
        answer.Body.IsDenied = question.Body.Kind == GuardianProcess ? EndsWith(question.Body.Name, L"\\bad.exe") : memcmp(question.Body.Digest, gBad, sizeof(gBad)) == 0;
        printf("%s %ls: %s\n", question.Body.Kind == GuardianProcess ? "process" : "file", question.Body.Name, answer.Body.IsDenied ? "denied" : "allowed");
        FilterReplyMessage(gPort, &answer.Header, sizeof(answer.Header) + sizeof(answer.Body));
    }
    return 0;
}

static void Show(void)
{
    GUARDIAN_COUNTS counts;
    DWORD returned, ask = 0;
    HRESULT result = FilterSendMessage(gPort, &ask, sizeof(ask), &counts, sizeof(counts), &returned);

    if (FAILED(result)) {
        printf("no counts: %08lx\n", (unsigned long)result);
        return;
    }
    printf("%lu processes, %lu threads from elsewhere, %lu images, %lu keys denied, %lu handles, %lu files denied, %lu renames denied\n", (unsigned long)counts.Processes,
           (unsigned long)counts.RemoteThreads, (unsigned long)counts.Images, (unsigned long)counts.DeniedKeys, (unsigned long)counts.Handles, (unsigned long)counts.DeniedFiles,
           (unsigned long)counts.DeniedRenames);
}

int main(void)
{
    char line[40];
    HANDLE thread;
    HRESULT result = FilterConnectCommunicationPort(GUARDIAN_PORT, 0, NULL, 0, NULL, &gPort);

    if (FAILED(result)) {
        printf("not connected: %08lx\n", (unsigned long)result);
        return 1;
    }
    thread = CreateThread(NULL, 0, Serve, NULL, 0, NULL);
    while (fgets(line, sizeof(line), stdin) && line[0] != 'q') {
        Show();
    }
    CloseHandle(gPort);
    WaitForSingleObject(thread, INFINITE);
    CloseHandle(thread);
    return 0;
}
