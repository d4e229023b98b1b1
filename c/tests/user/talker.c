/* A program that asks its driver for eight bytes. */
#include <windows.h>
#include <fltUser.h>
#include <stdio.h>

int main(void)
{
    HANDLE port;
    DWORD back = 0, word = 1;
    char room[8];

    if (FilterConnectCommunicationPort(L"\\StuckPort", 0, NULL, 0, NULL, &port) != S_OK) {
        return 1;
    }
    if (FilterSendMessage(port, &word, sizeof(word), room, sizeof(room), &back) == S_OK) {
        printf("%lu bytes\n", (unsigned long)back);
    }
    CloseHandle(port);
    return 0;
}
