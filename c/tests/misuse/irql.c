/* Calls at an IRQL that is too high for them: each flush takes the next step under a spin lock, a read's postoperation is at DISPATCH_LEVEL by itself. */
#include <fltKernel.h>

#define IRQL_TAG 'lqrI'

static PFLT_FILTER gFilter;
static KSPIN_LOCK gLock;
static FAST_MUTEX gMutex;
static ERESOURCE gResource;
static EX_PUSH_LOCK gPushLock;
static ULONG gStep;
static UNICODE_STRING gName = RTL_CONSTANT_STRING(L"name");

static void Step(PFLT_CALLBACK_DATA Data, PCFLT_RELATED_OBJECTS FltObjects, ULONG Number)
{
    PFLT_FILE_NAME_INFORMATION name;
    PFLT_CONTEXT context = NULL;
    PVOID memory;

    switch (Number) {
    case 0:
        if (NT_SUCCESS(FltGetFileNameInformation(Data, FLT_FILE_NAME_NORMALIZED | FLT_FILE_NAME_QUERY_DEFAULT, &name))) {
            FltReleaseFileNameInformation(name);
        }
        break;
    case 1:
        memory = ExAllocatePoolWithTag(PagedPool, 8, IRQL_TAG);
        ExFreePoolWithTag(memory, IRQL_TAG);
        break;
    case 2:
        ExAcquireFastMutex(&gMutex);
        ExReleaseFastMutex(&gMutex);
        break;
    case 3:
        if (NT_SUCCESS(FltGetStreamContext(FltObjects->Instance, FltObjects->FileObject, &context))) {
            FltReleaseContext(context);
        }
        break;
    case 4:
        KeEnterCriticalRegion();
        ExAcquireResourceExclusiveLite(&gResource, TRUE);
        ExReleaseResourceLite(&gResource);
        KeLeaveCriticalRegion();
        break;
    case 5:
        FltAcquirePushLockExclusive(&gPushLock);
        FltReleasePushLock(&gPushLock);
        break;
    case 6:
        RtlEqualUnicodeString(&gName, &gName, TRUE);
        break;
    }
}

static FLT_PREOP_CALLBACK_STATUS PreFlush(_Inout_ PFLT_CALLBACK_DATA Data, _In_ PCFLT_RELATED_OBJECTS FltObjects, _Flt_CompletionContext_Outptr_ PVOID *CompletionContext)
{
    KIRQL irql;

    UNREFERENCED_PARAMETER(CompletionContext);
    KeAcquireSpinLock(&gLock, &irql);
    Step(Data, FltObjects, gStep);
    /* The last one goes back to another level than it came from. */
    KeReleaseSpinLock(&gLock, gStep == 7 ? APC_LEVEL : irql);
    gStep++;
    return FLT_PREOP_SUCCESS_NO_CALLBACK;
}

static FLT_PREOP_CALLBACK_STATUS PreRead(_Inout_ PFLT_CALLBACK_DATA Data, _In_ PCFLT_RELATED_OBJECTS FltObjects, _Flt_CompletionContext_Outptr_ PVOID *CompletionContext)
{
    UNREFERENCED_PARAMETER(Data);
    UNREFERENCED_PARAMETER(FltObjects);
    UNREFERENCED_PARAMETER(CompletionContext);
    return FLT_PREOP_SUCCESS_WITH_CALLBACK;
}

static FLT_POSTOP_CALLBACK_STATUS PostRead(_Inout_ PFLT_CALLBACK_DATA Data, _In_ PCFLT_RELATED_OBJECTS FltObjects, _In_opt_ PVOID CompletionContext, _In_ FLT_POST_OPERATION_FLAGS Flags)
{
    UNREFERENCED_PARAMETER(CompletionContext);
    UNREFERENCED_PARAMETER(Flags);
    Step(Data, FltObjects, 0);
    return FLT_POSTOP_FINISHED_PROCESSING;
}

static FLT_PREOP_CALLBACK_STATUS PreWrite(_Inout_ PFLT_CALLBACK_DATA Data, _In_ PCFLT_RELATED_OBJECTS FltObjects, _Flt_CompletionContext_Outptr_ PVOID *CompletionContext)
{
    KIRQL irql;
    OBJECT_ATTRIBUTES attributes;
    HANDLE key;

    UNREFERENCED_PARAMETER(Data);
    UNREFERENCED_PARAMETER(FltObjects);
    UNREFERENCED_PARAMETER(CompletionContext);
    InitializeObjectAttributes(&attributes, &gName, OBJ_KERNEL_HANDLE, NULL, NULL);
    /* A fast mutex is APC_LEVEL: a key isn't opened there. */
    ExAcquireFastMutex(&gMutex);
    if (NT_SUCCESS(ZwOpenKey(&key, KEY_READ, &attributes))) {
        ZwClose(key);
    }
    ExReleaseFastMutex(&gMutex);
    KeRaiseIrql(DISPATCH_LEVEL, &irql);
    return FLT_PREOP_SUCCESS_NO_CALLBACK;
}

static NTSTATUS Unload(_In_ FLT_FILTER_UNLOAD_FLAGS Flags)
{
    UNREFERENCED_PARAMETER(Flags);
    FltUnregisterFilter(gFilter);
    ExDeleteResourceLite(&gResource);
    FltDeletePushLock(&gPushLock);
    return STATUS_SUCCESS;
}

static const FLT_CONTEXT_REGISTRATION Contexts[] = {{FLT_STREAM_CONTEXT, 0, NULL, 8, IRQL_TAG}, {FLT_CONTEXT_END}};
static const FLT_OPERATION_REGISTRATION Operations[] = {{IRP_MJ_FLUSH_BUFFERS, 0, PreFlush}, {IRP_MJ_READ, 0, PreRead, PostRead}, {IRP_MJ_WRITE, 0, PreWrite}, {IRP_MJ_OPERATION_END}};

NTSTATUS DriverEntry(_In_ PDRIVER_OBJECT DriverObject, _In_ PUNICODE_STRING RegistryPath)
{
    FLT_REGISTRATION registration = {.Size = sizeof(FLT_REGISTRATION), .Version = FLT_REGISTRATION_VERSION, .ContextRegistration = Contexts, .OperationRegistration = Operations, .FilterUnloadCallback = Unload};
    NTSTATUS status;

    UNREFERENCED_PARAMETER(RegistryPath);
    KeInitializeSpinLock(&gLock);
    ExInitializeFastMutex(&gMutex);
    ExInitializeResourceLite(&gResource);
    FltInitializePushLock(&gPushLock);
    status = FltRegisterFilter(DriverObject, &registration, &gFilter);
    return NT_SUCCESS(status) ? FltStartFiltering(gFilter) : status;
}
