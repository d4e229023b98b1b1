/* What the files of this driver share: it does what a scenario draws. */
#ifndef DRAWN_H
#define DRAWN_H

#include <fltKernel.h>

#define TAG 'nwrD'

enum { PROGRAMS = 8, LENGTH = 32, OF_THREAD = 6, OF_MESSAGE = 7 };

/* One program that is carried out. */
typedef struct _RUN {
    PCFLT_RELATED_OBJECTS Objects; /* NULL in a thread and for a message */
    ULONG Number, Seen;
    BOOLEAN Skips, IsInside, IsOwner, Pends, Defers;
} RUN, *PRUN;

/* What a letter of draw.py stands for. */
typedef struct _ACT {
    UCHAR Letter;
    VOID (*Do)(PRUN Run, UCHAR X);
} ACT;

typedef struct _ACTS {
    ULONG Count;
    const ACT *All;
} ACTS;

extern const ACTS gMemoryActs, gWaitActs, gLockActs, gBesideActs, gObjectActs;

/* What more than one file has. */
typedef struct _DRAWN {
    PFLT_FILTER Filter;
    PFLT_PORT ServerPort, ClientPort;
    UCHAR Programs[PROGRAMS][LENGTH];
    volatile LONG Cells[4];
    LONG Plain;
} DRAWN;
extern DRAWN gDrawn;

/* Goes into what the program's end prints. */
VOID See(PRUN Run, ULONG Value);
LARGE_INTEGER *After(LARGE_INTEGER *Time, LONG Milliseconds);

/* Carries out that program; what of it is asked of the operation is in the answer's flags. */
RUN CarryOut(PCFLT_RELATED_OBJECTS Objects, ULONG Number);

/* Each file's own objects: as the driver begins, as an instance is torn down, and at the driver's end. */
VOID BeginMemory(VOID);
VOID EndMemory(VOID);
VOID BeginWaits(VOID);
VOID SetAllEvents(VOID);
VOID BeginLocks(VOID);
VOID EndLocks(VOID);
VOID EndOfRun(PRUN Run); /* what it still has is given back */
VOID BeginBeside(VOID);
VOID EndBeside(VOID);

#endif
