/* What the spy and its log program say to each other. */
#ifndef SPY_H
#define SPY_H

#define SPY_PORT L"\\SpyPort"
#define SPY_NAME_LETTERS 40

typedef enum _SPY_COMMAND { SpyGetLog, SpyGetLost } SPY_COMMAND;

typedef struct _SPY_REQUEST {
    SPY_COMMAND Command;
} SPY_REQUEST, *PSPY_REQUEST;

/* A log is as many of these as there is room for. */
typedef struct _SPY_RECORD {
    ULONG Number;
    ULONG ProcessId;
    ULONG MajorFunction;
    LONG Status;
    ULONGLONG Information;
    WCHAR Name[SPY_NAME_LETTERS];
} SPY_RECORD, *PSPY_RECORD;

#endif
