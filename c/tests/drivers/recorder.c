/* A filter that says what it sees, one line a callback, for the lists of crates/test_recorder/src/order.rt. What it answers it knows by its own name, so that c/order.sh builds it
 * under several: with and none ask for every postoperation, or for none; hold pends reads and changes of a size, and late lets only the first read go at a teardown; keep holds the postoperations of reads;
 * carry sends a context along, meter sets two; deny completes creates, and sync has reads synchronized. Its instances are named in the order in which they are set up. */
#include <fltKernel.h>

#define TAG 'ceRK'
#define MOST 16

static PFLT_FILTER gFilter;
static char gName[16];
static PFLT_INSTANCE gInstances[MOST];
static ULONG gInstancesCount;

/* What it holds, in the order in which it came. */
static struct {
    PFLT_CALLBACK_DATA Data;
    PFLT_INSTANCE Instance;
} gHeld[MOST];
static ULONG gHeldCount;

static BOOLEAN Is(PCSTR Name)
{
    return strcmp(gName, Name) == 0;
}

static ULONG NumberOf(PFLT_INSTANCE Instance)
{
    ULONG at;

    for (at = 0; at < gInstancesCount; at++) {
        if (gInstances[at] == Instance) {
            return at + 1;
        }
    }
    return 0;
}

static PCSTR KindOf(PFLT_CALLBACK_DATA Data)
{
    switch (Data->Iopb->MajorFunction) {
    case IRP_MJ_CREATE:
        return "create";
    case IRP_MJ_READ:
        return "read";
    case IRP_MJ_WRITE:
        return "write";
    case IRP_MJ_QUERY_INFORMATION:
        return "querysize";
    case IRP_MJ_SET_INFORMATION:
        return Data->Iopb->Parameters.SetFileInformation.FileInformationClass == FileDispositionInformation ? "setdelete" : "setsize";
    case IRP_MJ_FLUSH_BUFFERS:
        return "flush";
    case IRP_MJ_DIRECTORY_CONTROL:
        return "list";
    case IRP_MJ_CLEANUP:
        return "cleanup";
    case IRP_MJ_CLOSE:
        return "close";
    default:
        return "other";
    }
}

static VOID Saw(PCSTR Callback, PCFLT_RELATED_OBJECTS FltObjects)
{
    DbgPrint("saw %s %s-%u\n", Callback, gName, NumberOf(FltObjects->Instance));
}

static VOID SawOperation(PCSTR Callback, PCFLT_RELATED_OBJECTS FltObjects, PFLT_CALLBACK_DATA Data)
{
    DbgPrint("saw %s %s-%u %s\n", Callback, gName, NumberOf(FltObjects->Instance), KindOf(Data));
}

static VOID Cleanup(PFLT_CONTEXT Context, FLT_CONTEXT_TYPE ContextType)
{
    UNREFERENCED_PARAMETER(Context);
    DbgPrint("saw cleanup %s %s\n", gName, ContextType == FLT_INSTANCE_CONTEXT ? "instance" : ContextType == FLT_STREAM_CONTEXT ? "stream" : "handle");
}

static VOID Hold(PFLT_CALLBACK_DATA Data, PFLT_INSTANCE Instance)
{
    gHeld[gHeldCount].Data = Data;
    gHeld[gHeldCount].Instance = Instance;
    gHeldCount++;
}

/* Lets go on what an instance holds, up to so many, the first that came first. */
static VOID LetGo(PFLT_INSTANCE Instance, FLT_PREOP_CALLBACK_STATUS Verdict, ULONG Most)
{
    ULONG at, count = gHeldCount;

    gHeldCount = 0;
    for (at = 0; at < count; at++) {
        if (gHeld[at].Instance != Instance || Most == 0) {
            Hold(gHeld[at].Data, gHeld[at].Instance);
            continue;
        }
        Most--;
        if (Is("keep")) {
            FltCompletePendedPostOperation(gHeld[at].Data);
        } else {
            FltCompletePendedPreOperation(gHeld[at].Data, Verdict, NULL);
        }
    }
}

/* The context of the handle, with a reference. */
static PVOID OfHandle(PCFLT_RELATED_OBJECTS FltObjects)
{
    PFLT_CONTEXT context = NULL;

    if (NT_SUCCESS(FltGetStreamHandleContext(FltObjects->Instance, FltObjects->FileObject, &context))) {
        return context;
    }
    if (!NT_SUCCESS(FltAllocateContext(gFilter, FLT_STREAMHANDLE_CONTEXT, sizeof(ULONG), PagedPool, &context))) {
        return NULL;
    }
    FltSetStreamHandleContext(FltObjects->Instance, FltObjects->FileObject, FLT_SET_CONTEXT_KEEP_IF_EXISTS, context, NULL);
    return context;
}

static VOID SetOnStream(PCFLT_RELATED_OBJECTS FltObjects)
{
    PFLT_CONTEXT context;

    if (NT_SUCCESS(FltGetStreamContext(FltObjects->Instance, FltObjects->FileObject, &context))) {
        FltReleaseContext(context);
    } else if (NT_SUCCESS(FltAllocateContext(gFilter, FLT_STREAM_CONTEXT, sizeof(ULONG), PagedPool, &context))) {
        FltSetStreamContext(FltObjects->Instance, FltObjects->FileObject, FLT_SET_CONTEXT_KEEP_IF_EXISTS, context, NULL);
        FltReleaseContext(context);
    }
}

static VOID SetOnInstance(PCFLT_RELATED_OBJECTS FltObjects)
{
    PFLT_CONTEXT context;

    if (NT_SUCCESS(FltAllocateContext(gFilter, FLT_INSTANCE_CONTEXT, sizeof(ULONG), PagedPool, &context))) {
        FltSetInstanceContext(FltObjects->Instance, FLT_SET_CONTEXT_KEEP_IF_EXISTS, context, NULL);
        FltReleaseContext(context);
    }
}

static FLT_PREOP_CALLBACK_STATUS PreRead(PFLT_CALLBACK_DATA Data, PCFLT_RELATED_OBJECTS FltObjects, PVOID *CompletionContext)
{
    if (Is("hold") || Is("late")) {
        Hold(Data, FltObjects->Instance);
        return FLT_PREOP_PENDING;
    }
    if (Is("carry")) {
        *CompletionContext = OfHandle(FltObjects);
        return FLT_PREOP_SUCCESS_WITH_CALLBACK;
    }
    if (Is("meter")) {
        SetOnStream(FltObjects);
        return FLT_PREOP_SUCCESS_NO_CALLBACK;
    }
    if (Is("sync")) {
        return FLT_PREOP_SYNCHRONIZE;
    }
    return Is("keep") || Is("with") ? FLT_PREOP_SUCCESS_WITH_CALLBACK : FLT_PREOP_SUCCESS_NO_CALLBACK;
}

static FLT_PREOP_CALLBACK_STATUS Pre(PFLT_CALLBACK_DATA Data, PCFLT_RELATED_OBJECTS FltObjects, PVOID *CompletionContext)
{
    SawOperation("pre", FltObjects, Data);
    switch (Data->Iopb->MajorFunction) {
    case IRP_MJ_READ:
        return PreRead(Data, FltObjects, CompletionContext);
    case IRP_MJ_FLUSH_BUFFERS:
        if (Is("hold") || Is("keep") || Is("late")) {
            LetGo(FltObjects->Instance, FLT_PREOP_SUCCESS_WITH_CALLBACK, MOST);
            return FLT_PREOP_SUCCESS_WITH_CALLBACK;
        }
        break;
    case IRP_MJ_SET_INFORMATION:
        if (Is("hold")) {
            Hold(Data, FltObjects->Instance);
            return FLT_PREOP_PENDING;
        }
        break;
    case IRP_MJ_CREATE:
        if (Is("deny")) {
            Data->IoStatus.Status = STATUS_ACCESS_DENIED;
            Data->IoStatus.Information = 0;
            return FLT_PREOP_COMPLETE;
        }
        break;
    }
    return Is("with") ? FLT_PREOP_SUCCESS_WITH_CALLBACK : FLT_PREOP_SUCCESS_NO_CALLBACK;
}

static FLT_POSTOP_CALLBACK_STATUS Post(PFLT_CALLBACK_DATA Data, PCFLT_RELATED_OBJECTS FltObjects, PVOID CompletionContext, FLT_POST_OPERATION_FLAGS Flags)
{
    BOOLEAN isDrain = FlagOn(Flags, FLTFL_POST_OPERATION_DRAINING) != 0;

    SawOperation(isDrain ? "drain" : "post", FltObjects, Data);
    if (Is("carry") && CompletionContext != NULL) {
        FltReleaseContext(CompletionContext);
    }
    if (Is("keep") && !isDrain && Data->Iopb->MajorFunction == IRP_MJ_READ) {
        Hold(Data, FltObjects->Instance);
        return FLT_POSTOP_MORE_PROCESSING_REQUIRED;
    }
    return FLT_POSTOP_FINISHED_PROCESSING;
}

static NTSTATUS Setup(PCFLT_RELATED_OBJECTS FltObjects, FLT_INSTANCE_SETUP_FLAGS Flags, DEVICE_TYPE VolumeDeviceType, FLT_FILESYSTEM_TYPE VolumeFilesystemType)
{
    UNREFERENCED_PARAMETER(Flags);
    UNREFERENCED_PARAMETER(VolumeDeviceType);
    UNREFERENCED_PARAMETER(VolumeFilesystemType);
    gInstances[gInstancesCount++] = FltObjects->Instance;
    Saw("setup", FltObjects);
    if (Is("meter")) {
        SetOnInstance(FltObjects);
    }
    return STATUS_SUCCESS;
}

static NTSTATUS Query(PCFLT_RELATED_OBJECTS FltObjects, FLT_INSTANCE_QUERY_TEARDOWN_FLAGS Flags)
{
    UNREFERENCED_PARAMETER(Flags);
    Saw("query", FltObjects);
    return STATUS_SUCCESS;
}

static VOID Start(PCFLT_RELATED_OBJECTS FltObjects, FLT_INSTANCE_TEARDOWN_FLAGS Reason)
{
    UNREFERENCED_PARAMETER(Reason);
    Saw("start", FltObjects);
    LetGo(FltObjects->Instance, FLT_PREOP_SUCCESS_NO_CALLBACK, Is("late") ? 1 : MOST);
}

static VOID Complete(PCFLT_RELATED_OBJECTS FltObjects, FLT_INSTANCE_TEARDOWN_FLAGS Reason)
{
    UNREFERENCED_PARAMETER(Reason);
    Saw("complete", FltObjects);
}

static NTSTATUS Unload(FLT_FILTER_UNLOAD_FLAGS Flags)
{
    UNREFERENCED_PARAMETER(Flags);
    DbgPrint("saw unload %s\n", gName);
    FltUnregisterFilter(gFilter);
    return STATUS_SUCCESS;
}

static CONST FLT_OPERATION_REGISTRATION Callbacks[] = {{IRP_MJ_CREATE, 0, Pre, Post},
                                                       {IRP_MJ_READ, 0, Pre, Post},
                                                       {IRP_MJ_WRITE, 0, Pre, Post},
                                                       {IRP_MJ_QUERY_INFORMATION, 0, Pre, Post},
                                                       {IRP_MJ_SET_INFORMATION, 0, Pre, Post},
                                                       {IRP_MJ_FLUSH_BUFFERS, 0, Pre, Post},
                                                       {IRP_MJ_DIRECTORY_CONTROL, 0, Pre, Post},
                                                       {IRP_MJ_CLEANUP, 0, Pre, Post},
                                                       {IRP_MJ_CLOSE, 0, Pre, Post},
                                                       {IRP_MJ_OPERATION_END}};

static CONST FLT_CONTEXT_REGISTRATION Contexts[] = {{FLT_INSTANCE_CONTEXT, 0, Cleanup, sizeof(ULONG), TAG},
                                                    {FLT_STREAM_CONTEXT, 0, Cleanup, sizeof(ULONG), TAG},
                                                    {FLT_STREAMHANDLE_CONTEXT, 0, Cleanup, sizeof(ULONG), TAG},
                                                    {FLT_CONTEXT_END}};

static CONST FLT_REGISTRATION Registration = {sizeof(FLT_REGISTRATION), FLT_REGISTRATION_VERSION, 0, Contexts, Callbacks, Unload, Setup, Query, Start, Complete};

/* Its name is the last part of its key in the registry. */
static VOID ReadName(PUNICODE_STRING RegistryPath)
{
    USHORT length = RegistryPath->Length / sizeof(WCHAR), from = length, at;

    while (from > 0 && RegistryPath->Buffer[from - 1] != L'\\') {
        from--;
    }
    for (at = 0; from + at < length && at + 1 < sizeof(gName); at++) {
        gName[at] = (char)RegistryPath->Buffer[from + at];
    }
    gName[at] = 0;
}

NTSTATUS DriverEntry(PDRIVER_OBJECT DriverObject, PUNICODE_STRING RegistryPath)
{
    NTSTATUS status;

    ReadName(RegistryPath);
    status = FltRegisterFilter(DriverObject, &Registration, &gFilter);
    return NT_SUCCESS(status) ? FltStartFiltering(gFilter) : status;
}
