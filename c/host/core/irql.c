/* IRQL: at which level each call of the kit may be made, from its documentation. What isn't here may be called up to APC_LEVEL.
 *
 * Calls on counted strings are documented for PASSIVE_LEVEL since their code and tables are paged. At APC_LEVEL paged memory is there, so that a driver may call them under a fast mutex. */
#include "core/irql.h"

#include "core/client.h"
#include "core/held.h"
#include "core/told.h"

#include <ctype.h>
#include <stdlib.h>

/* In the order of their names, each. */
/* They wait for a file system, whose answer comes by a special kernel APC. */
static const char *const by_apc[] = {
    "FltCreateFile", "FltCreateFileEx", "FltCreateFileEx2", "FltCreateMailslotFile", "FltCreateNamedPipeFile", "FltCreateSystemVolumeInformationFolder",
    "FltDeviceIoControlFile", "FltFlushBuffers", "FltFlushBuffers2", "FltFsControlFile", "FltQueryDirectoryFile", "FltQueryDirectoryFileEx", "FltQueryEaFile",
    "FltQueryInformationFile", "FltQueryQuotaInformationFile", "FltQuerySecurityObject", "FltQueryVolumeInformationFile", "FltReadFile", "FltReadFileEx",
    "FltReissueSynchronousIo", "FltSetEaFile", "FltSetInformationFile", "FltSetQuotaInformationFile", "FltSetSecurityObject", "FltTagFile", "FltTagFileEx",
    "FltUntagFile", "FltWriteFile", "FltWriteFileEx", "IoCreateFile", "IoCreateFileEx", "IoCreateFileSpecifyDeviceObjectHint", "ZwCreateFile", "ZwDeleteFile",
    "ZwDeviceIoControlFile", "ZwFlushBuffersFile", "ZwFsControlFile", "ZwLockFile", "ZwOpenFile", "ZwQueryDirectoryFile", "ZwQueryDirectoryFileEx",
    "ZwQueryEaFile", "ZwQueryFullAttributesFile", "ZwQueryInformationFile", "ZwQueryVolumeInformationFile", "ZwReadFile", "ZwSetEaFile", "ZwSetInformationFile",
    "ZwSetVolumeInformationFile", "ZwUnlockFile", "ZwWriteFile",
};

/* They wait for the registry, a program or a thread. */
static const char *const at_passive[] = {
    "BCryptCloseAlgorithmProvider", "BCryptOpenAlgorithmProvider", "EtwRegister", "EtwUnregister", "FltClose", "FltDetachVolume", "FltOpenVolume",
    "FltQueryInformationByName", "FltQueryVolumeInformation", "FltSetVolumeInformation", "FsRtlGetFileSize", "IoBuildDeviceIoControlRequest",
    "IoBuildSynchronousFsdRequest", "IoCreateDeviceSecure", "IoQueryFileInformation", "IoQueryVolumeInformation", "IoRegisterBootDriverReinitialization",
    "IoRegisterDriverReinitialization", "IoRegisterFsRegistrationChange", "IoRegisterShutdownNotification", "IoReleaseRemoveLockAndWait",
    "IoUnregisterFsRegistrationChange", "IoWMIRegistrationControl", "ObRegisterCallbacks", "ObUnRegisterCallbacks", "PsSetCreateProcessNotifyRoutineEx2",
    "PsSetCreateThreadNotifyRoutine", "PsSetCreateThreadNotifyRoutineEx", "PsSetLoadImageNotifyRoutine", "PsSetLoadImageNotifyRoutineEx",
    "PsTerminateSystemThread", "ZwAllocateVirtualMemory", "ZwCancelIoFileEx", "ZwClose", "ZwCreateDirectoryObject", "ZwCreateEvent", "ZwCreateKey",
    "ZwCreateSection", "ZwCreateTransaction", "ZwDeleteKey", "ZwDeleteValueKey", "ZwDuplicateObject", "ZwEnumerateKey", "ZwEnumerateValueKey", "ZwFlushKey",
    "ZwFreeVirtualMemory", "ZwLoadDriver", "ZwMakeTemporaryObject", "ZwMapViewOfSection", "ZwNotifyChangeKey", "ZwOpenDirectoryObject", "ZwOpenEvent",
    "ZwOpenKey", "ZwOpenKeyEx", "ZwOpenProcess", "ZwOpenProcessTokenEx", "ZwOpenSection", "ZwOpenSymbolicLinkObject", "ZwOpenThread", "ZwOpenThreadTokenEx",
    "ZwQueryInformationByName", "ZwQueryInformationProcess", "ZwQueryInformationThread", "ZwQueryInformationToken", "ZwQueryKey", "ZwQueryObject",
    "ZwQuerySecurityObject", "ZwQuerySymbolicLinkObject", "ZwQuerySystemInformation", "ZwQueryValueKey", "ZwQueryVirtualMemory", "ZwRenameKey", "ZwSetEvent",
    "ZwSetSecurityObject", "ZwSetValueKey", "ZwTerminateProcess", "ZwUnloadDriver", "ZwUnmapViewOfSection", "ZwWaitForSingleObject",
};

/* Nothing that they touch is paged, and they wait for nobody. A release is the mistake of its acquire, and is told there; how long a wait is says its level, and what kind of memory is meant. */
static const char *const at_dispatch[] = {
    "BCryptCreateHash", "BCryptDecrypt", "BCryptDeriveKeyPBKDF2", "BCryptDestroyHash", "BCryptDestroyKey", "BCryptDuplicateHash", "BCryptEncrypt", "BCryptExportKey", "BCryptFinishHash",
    "BCryptGenRandom", "BCryptGenerateSymmetricKey", "BCryptGetProperty", "BCryptHash", "BCryptHashData", "BCryptImportKey", "BCryptSetProperty", "CcGetFileSizePointer", "CcIsFileCached",
    "DbgPrint", "DbgPrintEx", "EtwEventEnabled", "EtwWrite", "ExAcquireRundownProtection", "ExAcquireRundownProtectionCacheAware", "ExAcquireSpinLockExclusive",
    "ExAcquireSpinLockExclusiveAtDpcLevel", "ExAcquireSpinLockShared", "ExAcquireSpinLockSharedAtDpcLevel", "ExAllocateCacheAwareRundownProtection", "ExAllocateFromLookasideListEx",
    "ExAllocateFromNPagedLookasideList", "ExAllocatePool", "ExAllocatePool2", "ExAllocatePool3", "ExAllocatePoolUninitialized", "ExAllocatePoolWithQuotaTag", "ExAllocatePoolWithTag",
    "ExAllocatePoolZero", "ExAllocateTimer", "ExCancelTimer", "ExConvertExclusiveToSharedLite", "ExDeleteLookasideListEx", "ExDeleteNPagedLookasideList", "ExDeleteResourceLite",
    "ExDeleteTimer", "ExFreeCacheAwareRundownProtection", "ExFreePool", "ExFreePool2", "ExFreePoolWithTag", "ExFreeToLookasideListEx", "ExFreeToNPagedLookasideList",
    "ExGetExclusiveWaiterCount", "ExGetSharedWaiterCount", "ExInitializeFastMutex", "ExInitializeLookasideListEx", "ExInitializeNPagedLookasideList", "ExInitializePushLock",
    "ExInitializeResourceLite", "ExInitializeRundownProtection", "ExInterlockedInsertHeadList", "ExInterlockedInsertTailList", "ExInterlockedRemoveHeadList",
    "ExIsResourceAcquiredExclusiveLite", "ExIsResourceAcquiredSharedLite", "ExLocalTimeToSystemTime", "ExNotifyCallback", "ExQueueWorkItem", "ExReInitializeRundownProtection",
    "ExReInitializeRundownProtectionCacheAware", "ExReinitializeResourceLite", "ExReleaseFastMutex", "ExReleaseFastMutexUnsafe", "ExReleasePushLockExclusive",
    "ExReleasePushLockExclusiveEx", "ExReleasePushLockShared", "ExReleasePushLockSharedEx", "ExReleaseResourceAndLeaveCriticalRegion", "ExReleaseResourceForThreadLite",
    "ExReleaseResourceLite", "ExReleaseRundownProtection", "ExReleaseRundownProtectionCacheAware", "ExReleaseSpinLockExclusive", "ExReleaseSpinLockShared", "ExRundownCompleted",
    "ExRundownCompletedCacheAware", "ExSetResourceOwnerPointer", "ExSetTimer", "ExSystemTimeToLocalTime", "FltAllocateDeferredIoWorkItem", "FltAllocateGenericWorkItem",
    "FltAllocatePoolAlignedWithTag", "FltCancelIo", "FltCbdqDisable", "FltCbdqEnable", "FltCbdqInsertIo", "FltCbdqRemoveIo", "FltCbdqRemoveNextIo", "FltClearCallbackDataDirty",
    "FltClearCancelCompletion", "FltCompletePendedPostOperation", "FltCompletePendedPreOperation", "FltDecodeParameters", "FltDoCompletionProcessingWhenSafe", "FltFreeCallbackData",
    "FltFreeDeferredIoWorkItem", "FltFreeGenericWorkItem", "FltFreePoolAlignedWithTag", "FltGetActivityIdCallbackData", "FltGetCallerIsReadOnlyExtension", "FltGetFsZeroingOffset",
    "FltGetIoAttributionHandleFromCallbackData", "FltGetIoPriorityHint", "FltGetIoPriorityHintFromCallbackData", "FltGetIoPriorityHintFromFileObject", "FltGetIoPriorityHintFromThread",
    "FltGetIrpName", "FltGetNewSystemBufferAddress", "FltGetRequestorProcess", "FltGetRequestorProcessId", "FltGetRequestorProcessIdEx", "FltGetRequestorSessionId",
    "FltGetSwappedBufferMdlAddress", "FltIs32bitProcess", "FltIsCallbackDataDirty", "FltIsIoCanceled", "FltIsOperationSynchronous", "FltObjectDereference", "FltObjectReference",
    "FltPerformAsynchronousIo", "FltPropagateActivityIdToThread", "FltPropagateIrpExtension", "FltQueueDeferredIoWorkItem", "FltQueueGenericWorkItem", "FltReferenceContext",
    "FltReleaseContext", "FltReleaseContexts", "FltReleaseContextsEx", "FltReleasePushLock", "FltReleasePushLockEx", "FltReleaseResource", "FltRequestOperationStatusCallback",
    "FltRetainSwappedBufferMdlAddress", "FltReuseCallbackData", "FltSetActivityIdCallbackData", "FltSetCallbackDataDirty", "FltSetCancelCompletion", "FltSetFsZeroingOffset",
    "FltSetFsZeroingOffsetRequired", "FltSetIoPriorityHintIntoCallbackData", "FltSetIoPriorityHintIntoFileObject", "FltSetIoPriorityHintIntoThread", "FsRtlIsPagingFile",
    "FsRtlNormalizeNtstatus", "FsRtlSetupAdvancedHeader", "InterlockedFlushSList", "InterlockedPopEntrySList", "InterlockedPushEntrySList", "IoAcquireCancelSpinLock",
    "IoAcquireRemoveLock", "IoAllocateErrorLogEntry", "IoAllocateIrp", "IoAllocateMdl", "IoAllocateWorkItem", "IoBuildAsynchronousFsdRequest", "IoBuildPartialMdl", "IoCallDriver",
    "IoCancelIrp", "IoCompleteRequest", "IoCsqInitialize", "IoCsqInsertIrp", "IoCsqRemoveIrp", "IoCsqRemoveNextIrp", "IoFreeErrorLogEntry", "IoFreeIrp", "IoFreeMdl", "IoFreeWorkItem",
    "IoGetAttachedDeviceReference", "IoGetBaseFileSystemDeviceObject", "IoGetCurrentProcess", "IoGetFileObjectFilterContext", "IoGetFileObjectGenericMapping", "IoGetRelatedDeviceObject",
    "IoGetRemainingStackSize", "IoGetRequestorProcess", "IoGetRequestorProcessId", "IoGetStackLimits", "IoGetTopLevelIrp", "IoGetTransactionParameterBlock", "IoInitializeRemoveLock",
    "IoInitializeWorkItem", "IoIs32bitProcess", "IoIsOperationSynchronous", "IoIsSystemThread", "IoMarkIrpPending", "IoQueueWorkItem", "IoQueueWorkItemEx", "IoReleaseCancelSpinLock",
    "IoReleaseRemoveLock", "IoReuseIrp", "IoSetTopLevelIrp", "IoThreadToProcess", "IoWriteErrorLogEntry", "IofCallDriver", "IofCompleteRequest", "KeAcquireInStackQueuedSpinLock",
    "KeAcquireInStackQueuedSpinLockAtDpcLevel", "KeAcquireSpinLock", "KeAcquireSpinLockAtDpcLevel", "KeAcquireSpinLockRaiseToDpc", "KeAreAllApcsDisabled", "KeAreApcsDisabled",
    "KeCancelTimer", "KeClearEvent", "KeExpandKernelStackAndCallout", "KeExpandKernelStackAndCalloutEx", "KeGetCurrentThread", "KeInitializeDpc", "KeInitializeEvent",
    "KeInitializeGuardedMutex", "KeInitializeMutex", "KeInitializeQueue", "KeInitializeSemaphore", "KeInitializeTimer", "KeInitializeTimerEx", "KeInsertQueue", "KeInsertQueueDpc",
    "KeIpiGenericCall", "KeLeaveCriticalRegion", "KeLeaveGuardedRegion", "KePulseEvent", "KeQueryPriorityThread", "KeReadStateEvent", "KeReadStateTimer", "KeReleaseGuardedMutex",
    "KeReleaseGuardedMutexUnsafe", "KeReleaseInStackQueuedSpinLock", "KeReleaseInStackQueuedSpinLockFromDpcLevel", "KeReleaseMutex", "KeReleaseSemaphore", "KeReleaseSpinLock",
    "KeReleaseSpinLockFromDpcLevel", "KeRemoveQueueDpc", "KeResetEvent", "KeSetEvent", "KeSetTimer", "KeSetTimerEx", "KeWaitForMultipleObjects", "KeWaitForMutexObject",
    "KeWaitForSingleObject", "MmBuildMdlForNonPagedPool", "MmCreateMdl", "MmGetMdlByteCount", "MmGetMdlVirtualAddress", "MmGetSystemAddressForMdlSafe", "MmIsAddressValid",
    "MmIsDriverVerifying", "MmMapLockedPages", "MmMapLockedPagesSpecifyCache", "MmPrepareMdlForReuse", "MmProbeAndLockPages", "MmSizeOfMdl", "MmUnlockPages", "MmUnmapLockedPages",
    "ObDereferenceObject", "ObDereferenceObjectDeferDelete", "ObGetFilterVersion", "ObGetObjectType", "ObReferenceObject", "ObReferenceObjectByPointer", "ObfDereferenceObject",
    "ObfReferenceObject", "PsDereferenceImpersonationToken", "PsDereferencePrimaryToken", "PsGetCurrentProcess", "PsGetCurrentProcessId", "PsGetCurrentThread", "PsGetCurrentThreadId",
    "PsGetProcessCreateTimeQuadPart", "PsGetProcessExitStatus", "PsGetProcessId", "PsGetProcessImageFileName", "PsGetProcessInheritedFromUniqueProcessId", "PsGetProcessPeb",
    "PsGetProcessSectionBaseAddress", "PsGetProcessSessionId", "PsGetProcessWow64Process", "PsGetThreadId", "PsGetThreadProcess", "PsGetThreadProcessId", "PsGetVersion",
    "PsIsProtectedProcess", "PsIsProtectedProcessLight", "PsIsSystemThread", "PsIsThreadTerminating", "RtlAppendUnicodeStringToString", "RtlAppendUnicodeToString",
    "RtlCaptureStackBackTrace", "RtlCheckBit", "RtlClearAllBits", "RtlClearBits", "RtlCopyUnicodeString", "RtlCrc32", "RtlCreateHashTable", "RtlDeleteElementGenericTable",
    "RtlDeleteElementGenericTableAvl", "RtlDeleteHashTable", "RtlEnumerateGenericTable", "RtlEnumerateGenericTableAvl", "RtlEnumerateGenericTableWithoutSplaying", "RtlFindClearBitsAndSet",
    "RtlGetElementGenericTable", "RtlGetEnabledExtendedFeatures", "RtlInitAnsiString", "RtlInitEmptyUnicodeString", "RtlInitUnicodeString", "RtlInitUnicodeStringEx", "RtlInitializeBitMap",
    "RtlInitializeCorrelationVector", "RtlInitializeGenericTable", "RtlInitializeGenericTableAvl", "RtlInsertElementGenericTable", "RtlInsertElementGenericTableAvl",
    "RtlInsertEntryHashTable", "RtlIsGenericTableEmpty", "RtlLengthRequiredSid", "RtlLengthSecurityDescriptor", "RtlLengthSid", "RtlLookupElementGenericTable",
    "RtlLookupElementGenericTableAvl", "RtlLookupEntryHashTable", "RtlNtStatusToDosError", "RtlNumberGenericTableElements", "RtlNumberOfSetBits", "RtlRandomEx", "RtlRemoveEntryHashTable",
    "RtlSecondsSince1970ToTime", "RtlSetAllBits", "RtlSetBits", "RtlStringCbCatW", "RtlStringCbCopyW", "RtlStringCbLengthW", "RtlStringCchCatW", "RtlStringCchCopyW", "RtlStringCchLengthA",
    "RtlStringCchLengthW", "RtlSubAuthoritySid", "RtlTestBit", "RtlTimeFieldsToTime", "RtlTimeToSecondsSince1970", "RtlTimeToTimeFields", "RtlUnicodeStringCat",
    "RtlUnicodeStringCatString", "RtlUnicodeStringCopy", "RtlUnicodeStringCopyString", "RtlUnicodeStringInit", "RtlValidSid", "RtlValidateUnicodeString", "RtlWalkFrameChain",
};

/* At any level. */
static const char *const anywhere[] = {
    "DbgBreakPoint", "EtwProviderEnabled", "EtwWriteEx", "EtwWriteString", "EtwWriteTransfer", "ExGetPreviousMode", "ExInterlockedAddLargeInteger", "ExInterlockedPopEntryList",
    "ExInterlockedPushEntryList", "ExIsProcessorFeaturePresent", "ExVerifySuite", "InitializeSListHead", "InterlockedCompareExchange", "InterlockedIncrement", "KeBugCheckEx",
    "KeGetCurrentIrql", "KeGetCurrentProcessorNumberEx", "KeGetProcessorIndexFromNumber", "KeLowerIrql", "KeMemoryBarrier", "KeQueryInterruptTime", "KeQueryMaximumProcessorCountEx",
    "KeQueryPerformanceCounter", "KeQuerySystemTime", "KeQuerySystemTimePrecise", "KeQueryTickCount", "KeQueryTimeIncrement", "KeQueryUnbiasedInterruptTime", "KeRaiseIrql",
    "KeRegisterBugCheckCallback", "KfRaiseIrql", "QueryDepthSList", "RtlCompareMemory", "RtlCopyMemory", "RtlFillMemory", "RtlZeroMemory", "WmiQueryTraceInformation",
    "WmiTraceMessage", "WmiTraceMessageVa", "vDbgPrintExWithPrefix",
};

static int compare(const void *name, const void *place)
{
    return strcmp(name, *(const char *const *)place);
}

#define IS_IN(call, names) (bsearch((call), (names), sizeof(names) / sizeof(names)[0], sizeof(names)[0], compare) != NULL)

/* Routines have small letters after a large one. What the host's own steps are called begins with a small letter, what it has for the C library with its sign; macros and sections have large ones. */
static bool is_of_kit(const char *call)
{
    bool has_small = false;
    for (const char *letter = call; *letter; letter++)
        has_small |= islower((unsigned char)*letter);
    return has_small && isupper((unsigned char)*call) && strncmp(call, "Kz", 2) != 0;
}

static const char *name_of(KIRQL irql)
{
    return irql == PASSIVE_LEVEL ? "PASSIVE_LEVEL" : irql == APC_LEVEL ? "APC_LEVEL" : "DISPATCH_LEVEL";
}

/* A call that the kit makes inside another one is that one's. */
void kz_may_be_called(const char *call, KIRQL most)
{
    KIRQL irql = kz_irql();
    if (irql > most && kz_me->inside <= 1)
        kz_tell(KZM_IRQL, call, "called at IRQL %u; it may be called up to %s (%u)", irql, name_of(most), most);
}

static KIRQL most_of(const char *call)
{
    bool is_passive = IS_IN(call, by_apc) || IS_IN(call, at_passive);
    return is_passive ? PASSIVE_LEVEL : IS_IN(call, at_dispatch) ? DISPATCH_LEVEL : APC_LEVEL;
}

void kz_check_irql(const char *call)
{
    bool is_raised = kz_irql() > PASSIVE_LEVEL;
    if (!is_raised && kz_is_in_region(true) && kz_me->inside <= 1 && IS_IN(call, by_apc))
        kz_tell(KZM_APCS_DISABLED, call, "called with special kernel APCs disabled (in a guarded region)");
    if (is_raised && !IS_IN(call, anywhere) && is_of_kit(call))
        kz_may_be_called(call, most_of(call));
}
