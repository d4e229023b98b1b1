/* The provider of placeholders: `make NAME TEXT` has one made whose content is TEXT; a thread answers what the filter wants; `forget NAME` has it lost; quit. */
#include <windows.h>
#include <fltUser.h>
#include <stdio.h>

#include "../drivers/placeholder.h"

#define MOST 8

typedef struct _FILE_OF_CLOUD {
    char Name[PLACEHOLDER_LETTERS], Text[64];
} FILE_OF_CLOUD;

typedef struct _WANTED {
    FILTER_MESSAGE_HEADER Header;
    PLACEHOLDER_WANTED Body;
} WANTED;

typedef struct _CONTENT {
    FILTER_REPLY_HEADER Header;
    PLACEHOLDER_CONTENT Body;
} CONTENT;

static FILE_OF_CLOUD gFiles[MOST];
static CRITICAL_SECTION gLock;
static HANDLE gPort;

static FILE_OF_CLOUD *Find(const char *Name)
{
    int at;

    for (at = 0; at < MOST; at++) {
        if (strcmp(gFiles[at].Name, Name) == 0) {
            return &gFiles[at];
        }
    }
    return NULL;
}

static DWORD WINAPI Serve(LPVOID Parameter)
{
    WANTED wanted;
    CONTENT content;
    FILE_OF_CLOUD *file;
    char name[PLACEHOLDER_LETTERS];
    int at;

    (void)Parameter;
    while (SUCCEEDED(FilterGetMessage(gPort, &wanted.Header, sizeof(wanted), NULL))) {
        memset(&content, 0, sizeof(content));
        for (at = 0; at < PLACEHOLDER_LETTERS - 1 && wanted.Body.Name[at] != 0; at++) {
            name[at] = (char)wanted.Body.Name[at];
        }
        name[at] = 0;
        EnterCriticalSection(&gLock);
        file = Find(name);
        if (file != NULL) {
            content.Body.Length = (ULONG)strlen(file->Text);
            memcpy(content.Body.Bytes, file->Text, content.Body.Length);
        }
        LeaveCriticalSection(&gLock);
        printf("wanted: %s, %lu bytes, %s\n", name, (unsigned long)wanted.Body.Size, file != NULL ? "given" : "lost");
        content.Header.MessageId = wanted.Header.MessageId;
        FilterReplyMessage(gPort, &content.Header, sizeof(content.Header) + sizeof(content.Body));
    }
    return 0;
}

static void Make(const char *Name, const char *Text)
{
    FILE_OF_CLOUD *file;
    PLACEHOLDER_MAKE make = {0};
    DWORD returned;
    HRESULT result;
    int at;

    EnterCriticalSection(&gLock);
    file = Find("");
    if (file != NULL) {
        strcpy(file->Name, Name);
        strcpy(file->Text, Text);
    }
    LeaveCriticalSection(&gLock);
    make.Size = (ULONG)strlen(Text);
    for (at = 0; Name[at] != 0; at++) {
        make.Name[at] = (WCHAR)(unsigned char)Name[at];
    }
    result = FilterSendMessage(gPort, &make, sizeof(make), NULL, 0, &returned);
    printf("made %s: %08lx\n", Name, (unsigned long)result);
}

int main(void)
{
    char line[120], verb[12], name[PLACEHOLDER_LETTERS], text[64];
    FILE_OF_CLOUD *file;
    HANDLE thread;

    InitializeCriticalSection(&gLock);
    if (FAILED(FilterConnectCommunicationPort(PLACEHOLDER_PORT, 0, NULL, 0, NULL, &gPort))) {
        printf("not connected\n");
        return 1;
    }
    thread = CreateThread(NULL, 0, Serve, NULL, 0, NULL);
    while (fgets(line, sizeof(line), stdin) && line[0] != 'q') {
        text[0] = 0;
        if (sscanf(line, "%11s %47s %63s", verb, name, text) < 2) {
            continue;
        }
        if (verb[0] == 'm') {
            Make(name, text);
        } else {
            EnterCriticalSection(&gLock);
            file = Find(name);
            if (file != NULL) {
                file->Name[0] = 0;
            }
            LeaveCriticalSection(&gLock);
        }
    }
    CloseHandle(gPort);
    WaitForSingleObject(thread, INFINITE);
    CloseHandle(thread);
    DeleteCriticalSection(&gLock);
    return 0;
}
