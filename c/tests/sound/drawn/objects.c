/* Acts over the manager's objects: contexts, messages, the driver's own requests, operations that wait. */
#include "drawn.h"

static VOID UseContext(PRUN Run, UCHAR X)
{
    volatile LONG *context;

    UNREFERENCED_PARAMETER(X);
    if (Run->Objects == NULL || !NT_SUCCESS(FltGetStreamContext(Run->Objects->Instance, Run->Objects->FileObject, (PFLT_CONTEXT *)&context))) {
        See(Run, 99);
        return;
    }
    See(Run, (ULONG)InterlockedIncrement(context));
    FltReleaseContext((PFLT_CONTEXT)context);
}

static VOID SetContext(PRUN Run, UCHAR X)
{
    PLONG context;

    if (Run->Objects == NULL || !NT_SUCCESS(FltAllocateContext(gDrawn.Filter, FLT_STREAM_CONTEXT, sizeof(LONG), NonPagedPool, (PFLT_CONTEXT *)&context))) {
        return;
    }
    *context = 100 * ((LONG)Run->Number + 1);
    See(Run, (ULONG)FltSetStreamContext(Run->Objects->Instance, Run->Objects->FileObject, X & 1 ? FLT_SET_CONTEXT_REPLACE_IF_EXISTS : FLT_SET_CONTEXT_KEEP_IF_EXISTS, context, NULL));
    FltReleaseContext(context);
}

static VOID DropContext(PRUN Run, UCHAR X)
{
    UNREFERENCED_PARAMETER(X);
    if (Run->Objects != NULL) {
        See(Run, (ULONG)FltDeleteStreamContext(Run->Objects->Instance, Run->Objects->FileObject, NULL));
    }
}

static VOID Send(PRUN Run, UCHAR X)
{
    LARGE_INTEGER time;

    See(Run, (ULONG)FltSendMessage(gDrawn.Filter, &gDrawn.ClientPort, &Run->Number, sizeof(Run->Number), NULL, NULL, After(&time, X + 1)));
}

static VOID Pend(PRUN Run, UCHAR X) { UNREFERENCED_PARAMETER(X); Run->Pends = TRUE; }
static VOID Defer(PRUN Run, UCHAR X) { UNREFERENCED_PARAMETER(X); Run->Defers = TRUE; }

static VOID ReadBelow(PRUN Run, UCHAR X)
{
    LARGE_INTEGER offset = {.QuadPart = X};
    UCHAR byte = 0;
    ULONG count = 0;

    if (Run->Objects != NULL) {
        See(Run, (ULONG)FltReadFile(Run->Objects->Instance, Run->Objects->FileObject, &offset, 1, &byte, FLTFL_IO_OPERATION_DO_NOT_UPDATE_BYTE_OFFSET, &count, NULL, NULL));
        See(Run, count);
    }
}

static VOID FindInstances(PRUN Run, UCHAR X)
{
    PFLT_INSTANCE all[4];
    ULONG count = 0;

    UNREFERENCED_PARAMETER(X);
    if (NT_SUCCESS(FltEnumerateInstances(NULL, gDrawn.Filter, all, ARRAYSIZE(all), &count))) {
        for (ULONG at = 0; at < count; at++) {
            FltObjectDereference(all[at]);
        }
    }
    See(Run, count);
}

static const ACT Acts[] = {{'X', UseContext}, {'Y', SetContext}, {'Z', DropContext}, {'x', Send}, {'y', Pend}, {'7', Defer}, {'8', ReadBelow}, {'!', FindInstances}};
const ACTS gObjectActs = {ARRAYSIZE(Acts), Acts};
