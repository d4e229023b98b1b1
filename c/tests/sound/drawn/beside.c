/* Acts by which something runs beside the requests: work items, deferred procedure calls, timers, a thread. */
#include "drawn.h"

static KTIMER gTimer;
static KDPC gDpc;
static PEX_TIMER gExTimer;
static PETHREAD gThread;

static VOID Fire(PKDPC Dpc, PVOID Context, PVOID First, PVOID Second)
{
    UNREFERENCED_PARAMETER(Dpc);
    UNREFERENCED_PARAMETER(Context);
    UNREFERENCED_PARAMETER(First);
    UNREFERENCED_PARAMETER(Second);
    InterlockedIncrement(&gDrawn.Cells[0]);
}

static VOID Work(PFLT_GENERIC_WORKITEM Item, PVOID Object, PVOID Context)
{
    UNREFERENCED_PARAMETER(Object);
    UNREFERENCED_PARAMETER(Context);
    InterlockedIncrement(&gDrawn.Cells[1]);
    FltFreeGenericWorkItem(Item);
}

static VOID QueueWork(PRUN Run, UCHAR X)
{
    PFLT_GENERIC_WORKITEM item = FltAllocateGenericWorkItem();
    NTSTATUS status;

    UNREFERENCED_PARAMETER(X);
    if (item == NULL) {
        return;
    }
    status = FltQueueGenericWorkItem(item, Run->Objects->Instance, Work, DelayedWorkQueue, NULL);
    See(Run, (ULONG)status);
    if (!NT_SUCCESS(status)) {
        FltFreeGenericWorkItem(item);
    }
}

static VOID QueueDpc(PRUN Run, UCHAR X) { UNREFERENCED_PARAMETER(X); See(Run, KeInsertQueueDpc(&gDpc, NULL, NULL)); }
static VOID SetTimer(PRUN Run, UCHAR X) { LARGE_INTEGER time; See(Run, KeSetTimer(&gTimer, *After(&time, X + 1), &gDpc)); }
static VOID CancelTimer(PRUN Run, UCHAR X) { UNREFERENCED_PARAMETER(X); See(Run, KeCancelTimer(&gTimer)); }
static VOID FlushDpcs(PRUN Run, UCHAR X) { UNREFERENCED_PARAMETER(X); KeFlushQueuedDpcs(); See(Run, (ULONG)gDrawn.Cells[0]); }

static VOID Thread(PVOID Context)
{
    UNREFERENCED_PARAMETER(Context);
    CarryOut(NULL, OF_THREAD);
    PsTerminateSystemThread(STATUS_SUCCESS);
}

static VOID BeginThread(PRUN Run, UCHAR X)
{
    HANDLE handle;
    PVOID thread;

    UNREFERENCED_PARAMETER(Run);
    UNREFERENCED_PARAMETER(X);
    if (!NT_SUCCESS(PsCreateSystemThread(&handle, THREAD_ALL_ACCESS, NULL, NULL, NULL, Thread, NULL))) {
        return;
    }
    if (NT_SUCCESS(ObReferenceObjectByHandle(handle, THREAD_ALL_ACCESS, *PsThreadType, KernelMode, &thread, NULL))) {
        thread = InterlockedExchangePointer((PVOID volatile *)&gThread, thread);
        if (thread != NULL) {
            ObDereferenceObject(thread);
        }
    }
    ZwClose(handle);
}

static VOID ExFire(PEX_TIMER Timer, PVOID Context)
{
    UNREFERENCED_PARAMETER(Timer);
    UNREFERENCED_PARAMETER(Context);
    InterlockedIncrement(&gDrawn.Cells[2]);
}

static VOID SetExTimer(PRUN Run, UCHAR X)
{
    if (gExTimer != NULL) {
        See(Run, ExSetTimer(gExTimer, -10000LL * (X + 1), 0, NULL));
    }
}

static VOID CancelExTimer(PRUN Run, UCHAR X)
{
    UNREFERENCED_PARAMETER(X);
    if (gExTimer != NULL) {
        See(Run, ExCancelTimer(gExTimer, NULL));
    }
}

VOID BeginBeside(VOID)
{
    KeInitializeTimer(&gTimer);
    KeInitializeDpc(&gDpc, Fire, NULL);
    gExTimer = ExAllocateTimer(ExFire, NULL, EX_TIMER_NOTIFICATION);
}

VOID EndBeside(VOID)
{
    if (gThread != NULL) {
        KeWaitForSingleObject(gThread, Executive, KernelMode, FALSE, NULL);
        ObDereferenceObject(gThread);
    }
    KeCancelTimer(&gTimer);
    KeFlushQueuedDpcs();
    if (gExTimer != NULL) {
        ExDeleteTimer(gExTimer, TRUE, TRUE, NULL);
    }
}

static const ACT Acts[] = {{'R', QueueWork}, {'S', QueueDpc}, {'T', SetTimer}, {'U', CancelTimer}, {'V', FlushDpcs}, {'W', BeginThread}, {'5', SetExTimer}, {'6', CancelExTimer}};
const ACTS gBesideActs = {ARRAYSIZE(Acts), Acts};
