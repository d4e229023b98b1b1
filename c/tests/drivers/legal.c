/* What looks like a mistake and is none: nothing of it is told. A read's place says which; a flush lets go on what is held, and lets go of what is kept. */
#include <fltKernel.h>

typedef struct _COUNT {
    LONG Reads;
} COUNT, *PCOUNT;

typedef struct _PAIR {
    PFLT_CONTEXT Stream;
    PFLT_CONTEXT Instance;
} PAIR, *PPAIR;

PFLT_FILTER gFilterHandle;
static PCOUNT gEarly;
static PCOUNT gKept;
static PFLT_CALLBACK_DATA gHeld;
static PFLT_GENERIC_WORKITEM gWork;
static PVOID gMemory;

static VOID Set(PCFLT_RELATED_OBJECTS FltObjects, FLT_CONTEXT_TYPE Type)
{
    PCOUNT count;

    if (!NT_SUCCESS(FltAllocateContext(gFilterHandle, Type, sizeof(COUNT), NonPagedPool, (PFLT_CONTEXT *)&count))) {
        return;
    }
    count->Reads = 0;
    if (Type == FLT_STREAM_CONTEXT) {
        FltSetStreamContext(FltObjects->Instance, FltObjects->FileObject, FLT_SET_CONTEXT_KEEP_IF_EXISTS, count, NULL);
    } else {
        FltSetInstanceContext(FltObjects->Instance, FLT_SET_CONTEXT_KEEP_IF_EXISTS, count, NULL);
    }
    FltReleaseContext(count);
}

static NTSTATUS InstanceSetup(PCFLT_RELATED_OBJECTS FltObjects, FLT_INSTANCE_SETUP_FLAGS Flags, DEVICE_TYPE VolumeDeviceType,
                              FLT_FILESYSTEM_TYPE VolumeFilesystemType)
{
    UNREFERENCED_PARAMETER(Flags);
    UNREFERENCED_PARAMETER(VolumeDeviceType);
    UNREFERENCED_PARAMETER(VolumeFilesystemType);
    Set(FltObjects, FLT_INSTANCE_CONTEXT);
    /* What DriverEntry allocated is set here, and released. */
    if (gEarly != NULL) {
        DbgPrint("set of an early context 0x%08x\n", FltSetVolumeContext(FltObjects->Volume, FLT_SET_CONTEXT_KEEP_IF_EXISTS, gEarly, NULL));
        FltReleaseContext(gEarly);
        gEarly = NULL;
    }
    return STATUS_SUCCESS;
}

static FLT_POSTOP_CALLBACK_STATUS PostCreate(PFLT_CALLBACK_DATA Data, PCFLT_RELATED_OBJECTS FltObjects, PVOID CompletionContext, FLT_POST_OPERATION_FLAGS Flags)
{
    UNREFERENCED_PARAMETER(CompletionContext);
    UNREFERENCED_PARAMETER(Flags);
    if (NT_SUCCESS(Data->IoStatus.Status)) {
        Set(FltObjects, FLT_STREAM_CONTEXT);
    }
    return FLT_POSTOP_FINISHED_PROCESSING;
}

static VOID Work(PFLT_GENERIC_WORKITEM WorkItem, PVOID FltObject, PVOID Context)
{
    PFLT_FILE_NAME_INFORMATION name;
    PCOUNT count;

    UNREFERENCED_PARAMETER(FltObject);
    /* The name of an operation that it holds, and the context of an instance, from a work item of the filter. */
    if (NT_SUCCESS(FltGetFileNameInformation(gHeld, FLT_FILE_NAME_OPENED, &name))) {
        DbgPrint("%wZ is completed by a work item\n", &name->Name);
        FltReleaseFileNameInformation(name);
    }
    if (NT_SUCCESS(FltGetInstanceContext((PFLT_INSTANCE)Context, (PFLT_CONTEXT *)&count))) {
        count->Reads++;
        FltReleaseContext(count);
    }
    RtlCopyMemory(MmGetSystemAddressForMdlSafe(gHeld->Iopb->Parameters.Read.MdlAddress, NormalPagePriority), "worked", 6);
    gHeld->IoStatus.Status = STATUS_SUCCESS;
    gHeld->IoStatus.Information = 6;
    FltCompletePendedPreOperation(gHeld, FLT_PREOP_COMPLETE, NULL);
    FltFreeGenericWorkItem(WorkItem);
}

static NTSTATUS CopyToCaller(PVOID To, const VOID *From, SIZE_T Length)
{
    __try {
        RtlCopyMemory(To, From, Length);
    } __except (EXCEPTION_EXECUTE_HANDLER) {
        return GetExceptionCode();
    }
    return STATUS_SUCCESS;
}

static FLT_PREOP_CALLBACK_STATUS PreRead(PFLT_CALLBACK_DATA Data, PCFLT_RELATED_OBJECTS FltObjects, PVOID *CompletionContext)
{
    FLT_RELATED_CONTEXTS contexts;
    PPAIR pair;

    switch (Data->Iopb->Parameters.Read.ByteOffset.QuadPart) {
    case 0: /* Completed before it returns that it pends. */
        FltCompletePendedPreOperation(Data, FLT_PREOP_SUCCESS_NO_CALLBACK, NULL);
        return FLT_PREOP_PENDING;
    case 1: /* A reference that is kept. */
        if (gKept == NULL) {
            FltGetStreamContext(FltObjects->Instance, FltObjects->FileObject, (PFLT_CONTEXT *)&gKept);
        }
        return FLT_PREOP_SUCCESS_NO_CALLBACK;
    case 2: /* Completed with bytes. */
        Data->IoStatus.Status = CopyToCaller(Data->Iopb->Parameters.Read.ReadBuffer, "cache", 5);
        Data->IoStatus.Information = 5;
        return FLT_PREOP_COMPLETE;
    case 3: /* Completed with a status that the manager hasn't. */
        Data->IoStatus.Status = STATUS_CANCELLED;
        Data->IoStatus.Information = 0;
        return FLT_PREOP_COMPLETE;
    case 4: /* Two contexts go to the postoperation. */
        pair = ExAllocatePoolWithTag(NonPagedPool, sizeof(PAIR), 'riaP');
        FltGetStreamContext(FltObjects->Instance, FltObjects->FileObject, &pair->Stream);
        FltGetInstanceContext(FltObjects->Instance, &pair->Instance);
        *CompletionContext = pair;
        return FLT_PREOP_SUCCESS_WITH_CALLBACK;
    case 5: /* Held, and completed by a work item with bytes, in another process. */
        FltLockUserBuffer(Data);
        gHeld = Data;
        gWork = FltAllocateGenericWorkItem();
        FltQueueGenericWorkItem(gWork, FltObjects->Filter, Work, DelayedWorkQueue, FltObjects->Instance);
        return FLT_PREOP_PENDING;
    case 6: /* All contexts at once. */
        FltGetContexts(FltObjects, FLT_ALL_CONTEXTS, &contexts);
        DbgPrint("volume %d, instance %d, stream %d, handle %d\n", contexts.VolumeContext != NULL, contexts.InstanceContext != NULL,
                 contexts.StreamContext != NULL, contexts.StreamHandleContext != NULL);
        FltDeleteContext(contexts.StreamContext);
        FltReleaseContexts(&contexts);
        return FLT_PREOP_SUCCESS_NO_CALLBACK;
    default: /* Held, and let go on by a flush of another instance. */
        gHeld = Data;
        return FLT_PREOP_PENDING;
    }
}

static FLT_POSTOP_CALLBACK_STATUS PostRead(PFLT_CALLBACK_DATA Data, PCFLT_RELATED_OBJECTS FltObjects, PVOID CompletionContext, FLT_POST_OPERATION_FLAGS Flags)
{
    PPAIR pair = CompletionContext;

    UNREFERENCED_PARAMETER(FltObjects);
    UNREFERENCED_PARAMETER(Flags);
    FltReleaseContext(pair->Instance);
    FltReleaseContext(pair->Stream);
    ExFreePoolWithTag(pair, 'riaP');
    FltSetCallbackDataDirty(Data); /* of what wasn't changed */
    return FLT_POSTOP_FINISHED_PROCESSING;
}

static FLT_PREOP_CALLBACK_STATUS PreFlush(PFLT_CALLBACK_DATA Data, PCFLT_RELATED_OBJECTS FltObjects, PVOID *CompletionContext)
{
    UNREFERENCED_PARAMETER(Data);
    UNREFERENCED_PARAMETER(FltObjects);
    UNREFERENCED_PARAMETER(CompletionContext);
    if (gHeld != NULL) {
        FltCompletePendedPreOperation(gHeld, FLT_PREOP_SUCCESS_NO_CALLBACK, NULL);
        gHeld = NULL;
    }
    if (gKept != NULL) {
        DbgPrint("kept: %d reads\n", gKept->Reads);
        FltReleaseContext(gKept);
        gKept = NULL;
    }
    return FLT_PREOP_SUCCESS_NO_CALLBACK;
}

/* A cleanup callback may allocate, and let go of what it allocated. */
static VOID Cleanup(PFLT_CONTEXT Context, FLT_CONTEXT_TYPE ContextType)
{
    PFLT_CONTEXT other;

    UNREFERENCED_PARAMETER(Context);
    DbgPrint("cleanup of type 0x%04x\n", ContextType);
    if (ContextType == FLT_STREAM_CONTEXT && NT_SUCCESS(FltAllocateContext(gFilterHandle, FLT_VOLUME_CONTEXT, sizeof(COUNT), NonPagedPool, &other))) {
        FltReleaseContext(other);
    }
}

/* It goes only if it must. */
static NTSTATUS Unload(FLT_FILTER_UNLOAD_FLAGS Flags)
{
    if (!FlagOn(Flags, FLTFL_FILTER_UNLOAD_MANDATORY)) {
        return STATUS_FLT_DO_NOT_DETACH;
    }
    FltUnregisterFilter(gFilterHandle);
    ExFreePoolWithTag(gMemory, 'lgeL');
    return STATUS_SUCCESS;
}

CONST FLT_OPERATION_REGISTRATION Callbacks[] = {
    {IRP_MJ_CREATE, 0, NULL, PostCreate}, {IRP_MJ_READ, 0, PreRead, PostRead}, {IRP_MJ_FLUSH_BUFFERS, 0, PreFlush, NULL}, {IRP_MJ_OPERATION_END}};
CONST FLT_CONTEXT_REGISTRATION Contexts[] = {{FLT_VOLUME_CONTEXT, 0, Cleanup, sizeof(COUNT), 'tnuC'},
                                             {FLT_INSTANCE_CONTEXT, 0, Cleanup, sizeof(COUNT), 'tnuC'},
                                             {FLT_STREAM_CONTEXT, 0, Cleanup, sizeof(COUNT), 'tnuC'},
                                             {FLT_CONTEXT_END}};
CONST FLT_REGISTRATION Registration = {sizeof(FLT_REGISTRATION), FLT_REGISTRATION_VERSION, 0, Contexts, Callbacks, Unload, InstanceSetup};

NTSTATUS DriverEntry(PDRIVER_OBJECT DriverObject, PUNICODE_STRING RegistryPath)
{
    NTSTATUS status = FltRegisterFilter(DriverObject, &Registration, &gFilterHandle);

    UNREFERENCED_PARAMETER(RegistryPath);
    if (NT_SUCCESS(status)) {
        gMemory = ExAllocatePoolWithTag(NonPagedPool, 8, 'lgeL');
        status = FltAllocateContext(gFilterHandle, FLT_VOLUME_CONTEXT, sizeof(COUNT), NonPagedPool, (PFLT_CONTEXT *)&gEarly);
        DbgPrint("allocation in DriverEntry 0x%08x\n", status);
        status = FltStartFiltering(gFilterHandle);
    }
    return status;
}
