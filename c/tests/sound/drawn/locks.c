/* Acts over locks and rundown protection. */
#include "drawn.h"

static KMUTEX gMutex;
static FAST_MUTEX gFastMutexes[2];
static EX_PUSH_LOCK gPushLocks[2];
static ERESOURCE gResources[2];
static KSPIN_LOCK gSpinLock;
static EX_RUNDOWN_REF gRundown;

static VOID WaitForMutex(PRUN Run, UCHAR X)
{
    LARGE_INTEGER time;

    if (!Run->IsOwner) {
        Run->IsOwner = KeWaitForSingleObject(&gMutex, Executive, KernelMode, FALSE, X & 1 ? After(&time, 10) : NULL) == STATUS_SUCCESS;
        See(Run, Run->IsOwner);
    }
}

static VOID LetMutexGo(PRUN Run, UCHAR X)
{
    UNREFERENCED_PARAMETER(X);
    if (Run->IsOwner) {
        KeReleaseMutex(&gMutex, FALSE);
    }
    Run->IsOwner = FALSE;
}

static VOID Lock(PRUN Run, UCHAR X) { UNREFERENCED_PARAMETER(Run); ExAcquireFastMutex(&gFastMutexes[X & 1]); gDrawn.Plain++; }
static VOID LetLockGo(PRUN Run, UCHAR X) { UNREFERENCED_PARAMETER(Run); ExReleaseFastMutex(&gFastMutexes[X & 1]); }
static VOID PushAlone(PRUN Run, UCHAR X) { UNREFERENCED_PARAMETER(Run); FltAcquirePushLockExclusive(&gPushLocks[X & 1]); gDrawn.Cells[X & 1]++; }
static VOID PushShared(PRUN Run, UCHAR X) { FltAcquirePushLockShared(&gPushLocks[X & 1]); See(Run, (ULONG)gDrawn.Cells[X & 1]); }
static VOID PushGo(PRUN Run, UCHAR X) { UNREFERENCED_PARAMETER(Run); FltReleasePushLock(&gPushLocks[X & 1]); }
static VOID ResourceGo(PRUN Run, UCHAR X) { UNREFERENCED_PARAMETER(Run); ExReleaseResourceLite(&gResources[X & 1]); KeLeaveCriticalRegion(); }

static VOID TryLock(PRUN Run, UCHAR X)
{
    BOOLEAN isTaken = ExTryToAcquireFastMutex(&gFastMutexes[X & 1]);

    See(Run, isTaken);
    if (isTaken) {
        See(Run, (ULONG)gDrawn.Cells[X & 1]);
        ExReleaseFastMutex(&gFastMutexes[X & 1]);
    }
}

static VOID TakeResource(PRUN Run, UCHAR X, BOOLEAN (*Take)(PERESOURCE Resource, BOOLEAN Wait))
{
    KeEnterCriticalRegion();
    Take(&gResources[X & 1], TRUE);
    See(Run, (ULONG)gDrawn.Cells[2]);
}

static VOID TryResource(PRUN Run, UCHAR X, BOOLEAN (*Take)(PERESOURCE Resource, BOOLEAN Wait))
{
    BOOLEAN isTaken;

    KeEnterCriticalRegion();
    isTaken = Take(&gResources[X & 1], FALSE);
    See(Run, isTaken);
    if (isTaken) {
        gDrawn.Cells[2]++;
        ExReleaseResourceLite(&gResources[X & 1]);
    }
    KeLeaveCriticalRegion();
}

static BOOLEAN Alone(PERESOURCE Resource, BOOLEAN Wait) { return ExAcquireResourceExclusiveLite(Resource, Wait); }
static BOOLEAN Shared(PERESOURCE Resource, BOOLEAN Wait) { return ExAcquireResourceSharedLite(Resource, Wait); }
static BOOLEAN SharedFirst(PERESOURCE Resource, BOOLEAN Wait) { return ExAcquireSharedStarveExclusive(Resource, Wait); }
static BOOLEAN SharedLast(PERESOURCE Resource, BOOLEAN Wait) { return ExAcquireSharedWaitForExclusive(Resource, Wait); }
static VOID TakeAlone(PRUN Run, UCHAR X) { TakeResource(Run, X, Alone); }
static VOID TakeShared(PRUN Run, UCHAR X) { TakeResource(Run, X, Shared); }
static VOID TakeSharedFirst(PRUN Run, UCHAR X) { TakeResource(Run, X, SharedFirst); }
static VOID TakeSharedLast(PRUN Run, UCHAR X) { TakeResource(Run, X, SharedLast); }
static VOID TryAlone(PRUN Run, UCHAR X) { TryResource(Run, X, Alone); }
static VOID TryShared(PRUN Run, UCHAR X) { TryResource(Run, X, X & 2 ? SharedFirst : Shared); }

static VOID Spin(PRUN Run, UCHAR X)
{
    KIRQL irql;

    UNREFERENCED_PARAMETER(X);
    KeAcquireSpinLock(&gSpinLock, &irql);
    gDrawn.Cells[3]++;
    See(Run, (ULONG)gDrawn.Cells[3]);
    KeReleaseSpinLock(&gSpinLock, irql);
}

static VOID ComeIn(PRUN Run, UCHAR X)
{
    UNREFERENCED_PARAMETER(X);
    if (!Run->IsInside) {
        Run->IsInside = ExAcquireRundownProtection(&gRundown);
        See(Run, Run->IsInside);
    }
}

static VOID GoOut(PRUN Run, UCHAR X)
{
    UNREFERENCED_PARAMETER(X);
    if (Run->IsInside) {
        ExReleaseRundownProtection(&gRundown);
    }
    Run->IsInside = FALSE;
}

static VOID RunDown(PRUN Run, UCHAR X)
{
    if (!Run->IsInside) {
        ExWaitForRundownProtectionRelease(&gRundown);
        See(Run, (ULONG)gDrawn.Cells[X]);
        ExReInitializeRundownProtection(&gRundown);
    }
}

static VOID LetReadersIn(PRUN Run, UCHAR X)
{
    KeEnterCriticalRegion();
    ExAcquireResourceExclusiveLite(&gResources[X & 1], TRUE);
    gDrawn.Cells[2]++;
    ExConvertExclusiveToSharedLite(&gResources[X & 1]);
    See(Run, (ULONG)gDrawn.Cells[2]);
    ResourceGo(Run, X);
}

VOID BeginLocks(VOID)
{
    KeInitializeMutex(&gMutex, 0);
    for (ULONG at = 0; at < 2; at++) {
        ExInitializeFastMutex(&gFastMutexes[at]);
        FltInitializePushLock(&gPushLocks[at]);
        ExInitializeResourceLite(&gResources[at]);
    }
    KeInitializeSpinLock(&gSpinLock);
    ExInitializeRundownProtection(&gRundown);
}

VOID EndLocks(VOID)
{
    for (ULONG at = 0; at < 2; at++) {
        ExDeleteResourceLite(&gResources[at]);
        FltDeletePushLock(&gPushLocks[at]);
    }
}

VOID EndOfRun(PRUN Run)
{
    GoOut(Run, 0);
    LetMutexGo(Run, 0);
}

static const ACT Acts[] = {{'u', WaitForMutex}, {'v', LetMutexGo}, {'A', Lock}, {'B', LetLockGo}, {'C', TryLock}, {'D', PushAlone}, {'E', PushShared}, {'F', PushGo}, {'G', TakeAlone}, {'H', TakeShared}, {'I', TakeSharedFirst}, {'J', TakeSharedLast}, {'K', ResourceGo}, {'L', TryAlone}, {'M', TryShared}, {'l', LetReadersIn}, {'N', Spin}, {'O', ComeIn}, {'P', GoOut}, {'Q', RunDown}};
const ACTS gLockActs = {ARRAYSIZE(Acts), Acts};
