/* Acts over events, semaphores and time. */
#include "drawn.h"

static KEVENT gEvents[2];
static KSEMAPHORE gSemaphore;

static VOID WaitFor(PRUN Run, PVOID Object, LONG Milliseconds)
{
    LARGE_INTEGER time;

    See(Run, (ULONG)KeWaitForSingleObject(Object, Executive, KernelMode, FALSE, Milliseconds < 0 ? NULL : After(&time, Milliseconds)));
}

static VOID WaitForBoth(PRUN Run, WAIT_TYPE Type, LONG Milliseconds)
{
    PVOID objects[2] = {&gEvents[0], &gEvents[1]};
    LARGE_INTEGER time;

    See(Run, (ULONG)KeWaitForMultipleObjects(2, objects, Type, Executive, KernelMode, FALSE, Milliseconds < 0 ? NULL : After(&time, Milliseconds), NULL));
}

static VOID Set(PRUN Run, UCHAR X) { See(Run, (ULONG)KeSetEvent(&gEvents[X & 1], IO_NO_INCREMENT, FALSE)); }
static VOID Clear(PRUN Run, UCHAR X) { UNREFERENCED_PARAMETER(Run); KeClearEvent(&gEvents[X & 1]); }
static VOID Reset(PRUN Run, UCHAR X) { See(Run, (ULONG)KeResetEvent(&gEvents[X & 1])); }
static VOID Wait(PRUN Run, UCHAR X) { WaitFor(Run, &gEvents[X & 1], -1); }
static VOID TryEvent(PRUN Run, UCHAR X) { WaitFor(Run, &gEvents[X & 1], 0); }
static VOID WaitAWhile(PRUN Run, UCHAR X) { WaitFor(Run, &gEvents[X & 1], 10); }
static VOID WaitForAll(PRUN Run, UCHAR X) { WaitForBoth(Run, WaitAll, X & 1 ? -1 : 10); }
static VOID WaitForAny(PRUN Run, UCHAR X) { WaitForBoth(Run, WaitAny, X & 1 ? -1 : 10); }
static VOID Release(PRUN Run, UCHAR X) { UNREFERENCED_PARAMETER(X); See(Run, (ULONG)KeReleaseSemaphore(&gSemaphore, IO_NO_INCREMENT, 1, FALSE)); }
static VOID TrySemaphore(PRUN Run, UCHAR X) { UNREFERENCED_PARAMETER(X); WaitFor(Run, &gSemaphore, 0); }
static VOID WaitForSemaphore(PRUN Run, UCHAR X) { UNREFERENCED_PARAMETER(X); WaitFor(Run, &gSemaphore, -1); }
static VOID Delay(PRUN Run, UCHAR X) { LARGE_INTEGER time; UNREFERENCED_PARAMETER(Run); KeDelayExecutionThread(KernelMode, FALSE, After(&time, X + 1)); }

static VOID LookAtEvent(PRUN Run, UCHAR X) { See(Run, (ULONG)KeReadStateEvent(&gEvents[X & 1])); }

static VOID LookAtClock(PRUN Run, UCHAR X)
{
    LARGE_INTEGER time;

    UNREFERENCED_PARAMETER(X);
    KeQuerySystemTime(&time);
    See(Run, time.LowPart);
}

VOID SetAllEvents(VOID)
{
    KeSetEvent(&gEvents[0], IO_NO_INCREMENT, FALSE);
    KeSetEvent(&gEvents[1], IO_NO_INCREMENT, FALSE);
}

VOID BeginWaits(VOID)
{
    KeInitializeEvent(&gEvents[0], NotificationEvent, FALSE);
    KeInitializeEvent(&gEvents[1], SynchronizationEvent, FALSE);
    KeInitializeSemaphore(&gSemaphore, 0, 100);
}

static const ACT Acts[] = {{'i', Set}, {'j', Clear}, {'k', Reset}, {'m', Wait}, {'n', TryEvent}, {'o', WaitAWhile}, {'p', WaitForAll}, {'q', WaitForAny}, {'r', Release}, {'s', TrySemaphore}, {'t', WaitForSemaphore}, {'w', Delay}, {'9', LookAtEvent}, {'z', LookAtClock}};
const ACTS gWaitActs = {ARRAYSIZE(Acts), Acts};
