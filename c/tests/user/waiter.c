/* A program that sends a message to its driver once that waits for an answer to its own. */
#include <windows.h>
#include <fltUser.h>
#include <stdio.h>

int main(void)
{
    HANDLE port;
    DWORD back = 0, word = 1;

    if (FilterConnectCommunicationPort(L"\\StuckPort", 0, NULL, 0, NULL, &port) != S_OK) {
        return 1;
    }
    Sleep(10);
    printf("sent: %lx\n", (unsigned long)FilterSendMessage(port, &word, sizeof(word), NULL, 0, &back));
    CloseHandle(port);
    return 0;
}
