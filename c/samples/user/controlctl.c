/* The program that controls the filter `control`: deny EXTENSION, allow, counts, quit. */
#include <windows.h>
#include <winioctl.h>
#include <stdio.h>

#include "../control.h"

static void Deny(HANDLE Device, const char *Extension)
{
    CONTROL_RULE rule;
    DWORD returned;
    int at;

    memset(&rule, 0, sizeof(rule));
    for (at = 0; at < CONTROL_LETTERS - 1 && Extension[at] > ' '; at++) {
        rule.Extension[at] = (WCHAR)(unsigned char)Extension[at];
    }
    if (!DeviceIoControl(Device, IOCTL_CONTROL_DENY, &rule, sizeof(rule), NULL, 0, &returned, NULL)) {
        printf("no rule: error %lu\n", GetLastError());
    }
}

static void Counts(HANDLE Device)
{
    CONTROL_COUNTS counts;
    DWORD returned;

    if (!DeviceIoControl(Device, IOCTL_CONTROL_COUNTS, NULL, 0, &counts, sizeof(counts), &returned, NULL) || returned != sizeof(counts)) {
        printf("no counts: error %lu\n", GetLastError());
        return;
    }
    printf("allowed %lu, denied %lu\n", counts.Allowed, counts.Denied);
}

static void Command(HANDLE Device)
{
    char line[80];

    while (fgets(line, sizeof(line), stdin) && line[0] != 'q') {
        if (line[0] == 'd') {
            Deny(Device, line + 5);
        } else if (line[0] == 'a') {
            Deny(Device, "");
        } else {
            Counts(Device);
        }
    }
}

int main(int argc, char *argv[])
{
    HANDLE device = CreateFileA("\\\\.\\Control", GENERIC_READ | GENERIC_WRITE, 0, NULL, OPEN_EXISTING, 0, NULL);

    if (device == INVALID_HANDLE_VALUE) {
        printf("no device: error %lu\n", GetLastError());
        return 1;
    }
    if (argc > 1) {
        Deny(device, argv[1]);
    }
    Command(device);
    CloseHandle(device);
    return 0;
}
