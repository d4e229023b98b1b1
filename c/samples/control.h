/* Between the filter that a program controls and its program. */
#ifndef CONTROL_H
#define CONTROL_H

#define CONTROL_LETTERS 16

typedef struct _CONTROL_RULE {
    WCHAR Extension[CONTROL_LETTERS]; /* with a null; none: all is allowed */
} CONTROL_RULE, *PCONTROL_RULE;

typedef struct _CONTROL_COUNTS {
    ULONG Allowed;
    ULONG Denied;
} CONTROL_COUNTS, *PCONTROL_COUNTS;

#define IOCTL_CONTROL_DENY CTL_CODE(FILE_DEVICE_UNKNOWN, 0x800, METHOD_BUFFERED, FILE_ANY_ACCESS)
#define IOCTL_CONTROL_COUNTS CTL_CODE(FILE_DEVICE_UNKNOWN, 0x801, METHOD_BUFFERED, FILE_ANY_ACCESS)

#endif
