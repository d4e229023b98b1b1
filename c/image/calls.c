/* Calls of the kit that are macros in its headers here. */
#include "image/calls.h"
#include "image/point.h"
#include "core/told.h"
#include "core/client.h"

#include <stdlib.h>

#define SAME(type, name, parameters, call) \
    KZ_STUB_AS(type, kz_stub_##name, parameters) \
    {                                      \
        KZ_FROM();                         \
        return call;                       \
    }
#define SAME_VOID(name, parameters, call) \
    KZ_STUB_AS(VOID, kz_stub_##name, parameters) \
    {                                     \
        KZ_FROM();                        \
        call;                             \
    }
#define P(...) __VA_ARGS__

/* ---- Locks. */
SAME_VOID(ExAcquireFastMutex, PFAST_MUTEX lock, ExAcquireFastMutex(lock))
SAME_VOID(ExAcquireFastMutexUnsafe, PFAST_MUTEX lock, ExAcquireFastMutexUnsafe(lock))
SAME_VOID(ExReleaseFastMutex, PFAST_MUTEX lock, ExReleaseFastMutex(lock))
SAME_VOID(ExReleaseFastMutexUnsafe, PFAST_MUTEX lock, ExReleaseFastMutexUnsafe(lock))
SAME(BOOLEAN, ExTryToAcquireFastMutex, PFAST_MUTEX lock, ExTryToAcquireFastMutex(lock))
SAME_VOID(KeInitializeGuardedMutex, PFAST_MUTEX lock, KeInitializeGuardedMutex(lock))
SAME_VOID(KeAcquireGuardedMutex, PFAST_MUTEX lock, KeAcquireGuardedMutex(lock))
SAME_VOID(KeReleaseGuardedMutex, PFAST_MUTEX lock, KeReleaseGuardedMutex(lock))
SAME(BOOLEAN, KeTryToAcquireGuardedMutex, PFAST_MUTEX lock, KeTryToAcquireGuardedMutex(lock))
SAME_VOID(KeInitializeSpinLock, PKSPIN_LOCK lock, KeInitializeSpinLock(lock))
SAME(KIRQL, KeAcquireSpinLockRaiseToDpc, PKSPIN_LOCK lock, KeAcquireSpinLockRaiseToDpc(lock))
SAME_VOID(KeReleaseSpinLock, P(PKSPIN_LOCK lock, KIRQL irql), KeReleaseSpinLock(lock, irql))
SAME_VOID(KeAcquireSpinLockAtDpcLevel, PKSPIN_LOCK lock, KeAcquireSpinLockAtDpcLevel(lock))
SAME_VOID(KeReleaseSpinLockFromDpcLevel, PKSPIN_LOCK lock, KeReleaseSpinLockFromDpcLevel(lock))
SAME(BOOLEAN, KeTryToAcquireSpinLockAtDpcLevel, PKSPIN_LOCK lock, KeTryToAcquireSpinLockAtDpcLevel(lock))
SAME_VOID(KeAcquireInStackQueuedSpinLock, P(PKSPIN_LOCK lock, PKLOCK_QUEUE_HANDLE handle), KeAcquireInStackQueuedSpinLock(lock, handle))
SAME_VOID(KeReleaseInStackQueuedSpinLock, PKLOCK_QUEUE_HANDLE handle, KeReleaseInStackQueuedSpinLock(handle))
SAME_VOID(KeAcquireInStackQueuedSpinLockAtDpcLevel, P(PKSPIN_LOCK lock, PKLOCK_QUEUE_HANDLE handle), KeAcquireInStackQueuedSpinLockAtDpcLevel(lock, handle))
SAME_VOID(KeReleaseInStackQueuedSpinLockFromDpcLevel, PKLOCK_QUEUE_HANDLE handle, KeReleaseInStackQueuedSpinLockFromDpcLevel(handle))
SAME(KIRQL, ExAcquireSpinLockExclusive, PEX_SPIN_LOCK lock, ExAcquireSpinLockExclusive(lock))
SAME_VOID(ExReleaseSpinLockExclusive, P(PEX_SPIN_LOCK lock, KIRQL irql), ExReleaseSpinLockExclusive(lock, irql))
SAME(KIRQL, ExAcquireSpinLockShared, PEX_SPIN_LOCK lock, ExAcquireSpinLockShared(lock))
SAME_VOID(ExReleaseSpinLockShared, P(PEX_SPIN_LOCK lock, KIRQL irql), ExReleaseSpinLockShared(lock, irql))
SAME(KIRQL, KeRaiseIrqlToDpcLevel, VOID, KeRaiseIrqlToDpcLevel())
SAME(ULONG, ExIsResourceAcquiredSharedLite, PERESOURCE lock, ExIsResourceAcquiredSharedLite(lock))
SAME(BOOLEAN, ExIsResourceAcquiredExclusiveLite, PERESOURCE lock, ExIsResourceAcquiredExclusiveLite(lock))
SAME(PVOID, ExEnterCriticalRegionAndAcquireResourceExclusive, PERESOURCE lock, ExEnterCriticalRegionAndAcquireResourceExclusive(lock))
SAME(PVOID, ExEnterCriticalRegionAndAcquireResourceShared, PERESOURCE lock, ExEnterCriticalRegionAndAcquireResourceShared(lock))
SAME_VOID(ExReleaseResourceAndLeaveCriticalRegion, PERESOURCE lock, ExReleaseResourceAndLeaveCriticalRegion(lock))
SAME(ULONG, ExGetExclusiveWaiterCount, PERESOURCE lock, ExGetExclusiveWaiterCount(lock))
SAME(ULONG, ExGetSharedWaiterCount, PERESOURCE lock, ExGetSharedWaiterCount(lock))
SAME_VOID(FltInitializePushLock, PEX_PUSH_LOCK lock, FltInitializePushLock(lock))
SAME_VOID(FltDeletePushLock, PEX_PUSH_LOCK lock, FltDeletePushLock(lock))
SAME_VOID(FltAcquirePushLockExclusive, PEX_PUSH_LOCK lock, FltAcquirePushLockExclusive(lock))
SAME_VOID(FltAcquirePushLockShared, PEX_PUSH_LOCK lock, FltAcquirePushLockShared(lock))
SAME_VOID(FltReleasePushLock, PEX_PUSH_LOCK lock, FltReleasePushLock(lock))
SAME_VOID(FltAcquirePushLockExclusiveEx, P(PEX_PUSH_LOCK lock, ULONG flags), FltAcquirePushLockExclusiveEx(lock, flags))
SAME_VOID(FltAcquirePushLockSharedEx, P(PEX_PUSH_LOCK lock, ULONG flags), FltAcquirePushLockSharedEx(lock, flags))
SAME_VOID(FltReleasePushLockEx, P(PEX_PUSH_LOCK lock, ULONG flags), FltReleasePushLockEx(lock, flags))
SAME_VOID(FltAcquireResourceExclusive, PERESOURCE lock, FltAcquireResourceExclusive(lock))
SAME_VOID(FltAcquireResourceShared, PERESOURCE lock, FltAcquireResourceShared(lock))
SAME_VOID(FltReleaseResource, PERESOURCE lock, FltReleaseResource(lock))

/* ---- Memory, objects, the processor. */
static void pure_call(void)
{
    KZ_INSIDE_FROM("_purecall", kz_stub_caller);
    kz_tell(KZM_BUG_CHECK, "_purecall", "a pure virtual function is called");
    abort();
}

SAME(PVOID, ExAllocatePoolWithTagPriority, P(POOL_TYPE type, SIZE_T size, ULONG tag, ULONG priority), ExAllocatePoolWithTagPriority(type, size, tag, priority))
SAME(PVOID, FsRtlAllocatePoolWithTag, P(POOL_TYPE type, SIZE_T size, ULONG tag), FsRtlAllocatePoolWithTag(type, size, tag))
SAME(PVOID, MmMapLockedPagesSpecifyCache, P(PMDL mdl, KPROCESSOR_MODE mode, ULONG cache, PVOID at, ULONG stops, ULONG priority),
     ((void)mode, (void)cache, (void)at, (void)stops, MmGetSystemAddressForMdlSafe(mdl, priority)))
SAME(LONG_PTR, ObfReferenceObject, PVOID object, (ObfReferenceObject(object), 1))
SAME(LONG_PTR, ObfDereferenceObject, PVOID object, (ObfDereferenceObject(object), 1))
SAME_VOID(ObDereferenceObjectDeferDelete, PVOID object, ObDereferenceObjectDeferDelete(object))
SAME(NTSTATUS, ObCloseHandle, P(HANDLE handle, KPROCESSOR_MODE mode), ObCloseHandle(handle, mode))
SAME(PETHREAD, PsGetCurrentThread, VOID, PsGetCurrentThread())
SAME(PKTHREAD, KeGetCurrentThread, VOID, KeGetCurrentThread())
SAME(KPRIORITY, KeSetPriorityThread, P(PKTHREAD thread, KPRIORITY to), KeSetPriorityThread(thread, to))
SAME(ULONG, KeQueryActiveProcessorCount, PVOID affinity, ((void)affinity, 1))
SAME(ULONG, KeQueryActiveProcessorCountEx, USHORT group, ((void)group, 1))
SAME(ULONG, KeQueryMaximumProcessorCount, VOID, KeQueryMaximumProcessorCount())
SAME_VOID(KeStallExecutionProcessor, ULONG microseconds, KeStallExecutionProcessor(microseconds))
SAME_VOID(KeBugCheck, ULONG code, KeBugCheck(code))
SAME_VOID(KeBugCheckEx, P(ULONG code, ULONG_PTR a, ULONG_PTR b, ULONG_PTR c, ULONG_PTR d), KeBugCheckEx(code, a, b, c, d))
SAME_VOID(_purecall, VOID, pure_call())
SAME_VOID(DbgBreakPoint, VOID, DbgBreakPoint())
SAME_VOID(RtlAssert, P(PSTR expression, PSTR file, ULONG line, PSTR text), ((void)text, KzAssertFailed(expression, file, (int)line)))
SAME_VOID(KeQuerySystemTimePrecise, PLARGE_INTEGER time, KeQuerySystemTime(time))
SAME_VOID(SeLockSubjectContext, PSECURITY_SUBJECT_CONTEXT context, SeLockSubjectContext(context))
SAME_VOID(SeUnlockSubjectContext, PSECURITY_SUBJECT_CONTEXT context, SeUnlockSubjectContext(context))
SAME(BOOLEAN, FsRtlIsNtstatusExpected, NTSTATUS status, ((void)status, FsRtlIsNtstatusExpected(status)))
SAME(BOOLEAN, FsRtlIsTotalDeviceFailure, NTSTATUS status, ((void)status, FsRtlIsTotalDeviceFailure(status)))
SAME_VOID(FsRtlEnterFileSystem, VOID, FsRtlEnterFileSystem())
SAME_VOID(FsRtlExitFileSystem, VOID, FsRtlExitFileSystem())
SAME(ULONG, ExInterlockedAddUlong, P(PULONG to, ULONG by, PKSPIN_LOCK lock), ExInterlockedAddUlong(to, by, lock))

/* ---- The C library's, as the kernel exports it. */
SAME(size_t, strlen, const char *text, strlen(text))
SAME(size_t, strnlen, P(const char *text, size_t most), strnlen(text, most))
SAME(int, strcmp, P(const char *a, const char *b), strcmp(a, b))
SAME(int, strncmp, P(const char *a, const char *b, size_t most), strncmp(a, b, most))
SAME(char *, strcpy, P(char *to, const char *from), strcpy(to, from))
SAME(char *, strncpy, P(char *to, const char *from, size_t most), strncpy(to, from, most))
SAME(char *, strcat, P(char *to, const char *from), strcat(to, from))
SAME(char *, strncat, P(char *to, const char *from, size_t most), strncat(to, from, most))
SAME(char *, strchr, P(const char *text, int letter), strchr(text, letter))
SAME(char *, strrchr, P(const char *text, int letter), strrchr(text, letter))
SAME(char *, strstr, P(const char *text, const char *part), strstr(text, part))
SAME(int, memcmp, P(const void *a, const void *b, size_t size), (kz_watch_compare(a, b, size), memcmp(a, b, size)))
SAME(void *, memchr, P(const void *from, int byte, size_t size), memchr(from, byte, size))
SAME(int, toupper, int letter, letter >= 'a' && letter <= 'z' ? letter - 32 : letter)
SAME(int, tolower, int letter, letter >= 'A' && letter <= 'Z' ? letter + 32 : letter)
SAME(int, atoi, const char *text, atoi(text))
