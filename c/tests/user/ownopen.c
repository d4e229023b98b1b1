/* A service that opens the file that it is asked about, by the only thread that takes messages; with a word, it has a second one that does. */
#include <windows.h>
#include <fltUser.h>
#include <stdio.h>

typedef struct {
    FILTER_MESSAGE_HEADER Header;
    DWORD Word;
} QUESTION;

typedef struct {
    FILTER_REPLY_HEADER Header;
    DWORD Word;
} ANSWER;

static HANDLE gPort;

static DWORD WINAPI Serve(LPVOID Parameter)
{
    QUESTION question;
    ANSWER answer;

    (void)Parameter;
    while (FilterGetMessage(gPort, &question.Header, sizeof(question), NULL) == S_OK) {
        ZeroMemory(&answer, sizeof(answer));
        answer.Header.MessageId = question.Header.MessageId;
        FilterReplyMessage(gPort, &answer.Header, sizeof(answer));
    }
    return 0;
}

int main(int argc, char **argv)
{
    HANDLE file, thread = NULL;

    (void)argv;
    if (FilterConnectCommunicationPort(L"\\OwnPort", 0, NULL, 0, NULL, &gPort) != S_OK) {
        return 1;
    }
    if (argc > 1) {
        thread = CreateThread(NULL, 0, Serve, NULL, 0, NULL);
    }
    file = CreateFileA("C:\\scanned", GENERIC_READ | GENERIC_WRITE, FILE_SHARE_READ | FILE_SHARE_WRITE, NULL, OPEN_ALWAYS, 0, NULL);
    printf("%s\n", file == INVALID_HANDLE_VALUE ? "not opened" : "opened");
    CloseHandle(file);
    CloseHandle(gPort);
    if (thread != NULL) {
        WaitForSingleObject(thread, INFINITE);
    }
    return 0;
}
