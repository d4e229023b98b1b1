/* It waits for an event that nobody can set: in its unload, once it is unregistered, for a count that a flush leaves too high. What others could set, by a variable, by what it leads to, or by a
 * context, isn't called so. */
#include <fltKernel.h>

static PFLT_FILTER gFilterHandle;
static KEVENT gIdle;
static LONG gInside;
static PVOID gRoots[] = {&gIdle, NULL};

static FLT_PREOP_CALLBACK_STATUS PreFlush(PFLT_CALLBACK_DATA Data, PCFLT_RELATED_OBJECTS FltObjects, PVOID *CompletionContext)
{
    UNREFERENCED_PARAMETER(Data);
    UNREFERENCED_PARAMETER(FltObjects);
    UNREFERENCED_PARAMETER(CompletionContext);
    InterlockedIncrement(&gInside); /* and never down again */
    if (gRoots[1] != NULL) {
        KeSetEvent(gRoots[1], IO_NO_INCREMENT, FALSE);
    }
    return FLT_PREOP_SUCCESS_NO_CALLBACK;
}

static FLT_PREOP_CALLBACK_STATUS PreRead(PFLT_CALLBACK_DATA Data, PCFLT_RELATED_OBJECTS FltObjects, PVOID *CompletionContext)
{
    UNREFERENCED_PARAMETER(Data);
    UNREFERENCED_PARAMETER(FltObjects);
    UNREFERENCED_PARAMETER(CompletionContext);
    /* Another program's operation could set it on Windows. */
    KeWaitForSingleObject(&gIdle, Executive, KernelMode, FALSE, NULL);
    return FLT_PREOP_SUCCESS_NO_CALLBACK;
}

static PKEVENT AllocateEvent(PCFLT_RELATED_OBJECTS FltObjects)
{
    PKEVENT event = NULL;

    if (!NT_SUCCESS(FltAllocateContext(gFilterHandle, FLT_INSTANCE_CONTEXT, sizeof(KEVENT), NonPagedPool, (PFLT_CONTEXT *)&event))) {
        return NULL;
    }
    KeInitializeEvent(event, NotificationEvent, FALSE);
    if (!NT_SUCCESS(FltSetInstanceContext(FltObjects->Instance, FLT_SET_CONTEXT_KEEP_IF_EXISTS, event, NULL))) {
        FltReleaseContext(event);
        return NULL;
    }
    return event;
}

/* So could an operation that asks for the context, or for what a variable leads to. */
static FLT_PREOP_CALLBACK_STATUS PreWrite(PFLT_CALLBACK_DATA Data, PCFLT_RELATED_OBJECTS FltObjects, PVOID *CompletionContext)
{
    PKEVENT event;

    UNREFERENCED_PARAMETER(CompletionContext);
    if (Data->Iopb->Parameters.Write.ByteOffset.QuadPart == 0) {
        event = AllocateEvent(FltObjects);
        if (event != NULL) {
            KeWaitForSingleObject(event, Executive, KernelMode, FALSE, NULL);
            FltReleaseContext(event);
        }
        return FLT_PREOP_SUCCESS_NO_CALLBACK;
    }
    event = ExAllocatePoolWithTag(NonPagedPoolNx, sizeof(KEVENT), 'ldnE');
    if (event == NULL) {
        return FLT_PREOP_SUCCESS_NO_CALLBACK;
    }
    KeInitializeEvent(event, NotificationEvent, FALSE);
    gRoots[1] = event;
    KeWaitForSingleObject(event, Executive, KernelMode, FALSE, NULL);
    gRoots[1] = NULL;
    ExFreePoolWithTag(event, 'ldnE');
    return FLT_PREOP_SUCCESS_NO_CALLBACK;
}

static NTSTATUS Unload(FLT_FILTER_UNLOAD_FLAGS Flags)
{
    UNREFERENCED_PARAMETER(Flags);
    FltUnregisterFilter(gFilterHandle);
    if (InterlockedDecrement(&gInside) == 0) {
        KeSetEvent(&gIdle, IO_NO_INCREMENT, FALSE);
    }
    KeWaitForSingleObject(&gIdle, Executive, KernelMode, FALSE, NULL);
    return STATUS_SUCCESS;
}

static CONST FLT_OPERATION_REGISTRATION Callbacks[] = {{IRP_MJ_FLUSH_BUFFERS, 0, PreFlush}, {IRP_MJ_READ, 0, PreRead}, {IRP_MJ_WRITE, 0, PreWrite}, {IRP_MJ_OPERATION_END}};
static CONST FLT_CONTEXT_REGISTRATION Contexts[] = {{FLT_INSTANCE_CONTEXT, 0, NULL, sizeof(KEVENT), 'ldnE'}, {FLT_CONTEXT_END}};
static CONST FLT_REGISTRATION Registration = {sizeof(FLT_REGISTRATION), FLT_REGISTRATION_VERSION, 0, Contexts, Callbacks, Unload};

NTSTATUS DriverEntry(PDRIVER_OBJECT DriverObject, PUNICODE_STRING RegistryPath)
{
    NTSTATUS status;

    UNREFERENCED_PARAMETER(RegistryPath);
    gInside = 1;
    KeInitializeEvent(&gIdle, NotificationEvent, FALSE);
    status = FltRegisterFilter(DriverObject, &Registration, &gFilterHandle);
    return NT_SUCCESS(status) ? FltStartFiltering(gFilterHandle) : status;
}
