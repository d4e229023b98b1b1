/* Denies by content: a file that begins with `MZ` is a program, and no section of it is made for execution. Who asks for it may read it all the same. Control codes that would change what
 * a file's bytes are behind the filter's back are denied too: reparse points, sparse ranges, offloaded writes. */
#include <fltKernel.h>

#define GUARD_CONTEXT_TAG 'xCuG'

typedef struct _GUARD_CONTEXT {
    LONG IsProgram;
    LONG IsKnown; /* since the last write */
} GUARD_CONTEXT, *PGUARD_CONTEXT;

PFLT_FILTER gFilterHandle;
LONG gSections;
LONG gCodes;

/* ---- What a file is: the first two bytes are read below the filter. */
static BOOLEAN GuardRead(_In_ PCFLT_RELATED_OBJECTS FltObjects)
{
    LARGE_INTEGER offset = {0};
    UCHAR bytes[2] = {0};
    ULONG done = 0;
    NTSTATUS status = FltReadFile(FltObjects->Instance, FltObjects->FileObject, &offset, sizeof(bytes), bytes, FLTFL_IO_OPERATION_DO_NOT_UPDATE_BYTE_OFFSET, &done, NULL, NULL);

    return NT_SUCCESS(status) && done == sizeof(bytes) && bytes[0] == 'M' && bytes[1] == 'Z';
}

static NTSTATUS GuardGetContext(_In_ PCFLT_RELATED_OBJECTS FltObjects, _Outptr_ PGUARD_CONTEXT *Context)
{
    PGUARD_CONTEXT made, there = NULL;
    NTSTATUS status = FltGetStreamContext(FltObjects->Instance, FltObjects->FileObject, (PFLT_CONTEXT *)Context);

    if (status != STATUS_NOT_FOUND) {
        return status;
    }
    status = FltAllocateContext(FltObjects->Filter, FLT_STREAM_CONTEXT, sizeof(GUARD_CONTEXT), NonPagedPool, (PFLT_CONTEXT *)&made);
    if (!NT_SUCCESS(status)) {
        return status;
    }
    RtlZeroMemory(made, sizeof(GUARD_CONTEXT));
    status = FltSetStreamContext(FltObjects->Instance, FltObjects->FileObject, FLT_SET_CONTEXT_KEEP_IF_EXISTS, made, (PFLT_CONTEXT *)&there);
    if (status == STATUS_FLT_CONTEXT_ALREADY_DEFINED) {
        FltReleaseContext(made);
        *Context = there;
        return STATUS_SUCCESS;
    }
    if (!NT_SUCCESS(status)) {
        FltReleaseContext(made);
        return status;
    }
    *Context = made;
    return STATUS_SUCCESS;
}

/* A write may make a program of it, or something else of a program: what is known of the file is over before it, and after it, since somebody may look at the file meanwhile. */
static FLT_PREOP_CALLBACK_STATUS GuardPreWrite(_Inout_ PFLT_CALLBACK_DATA Data, _In_ PCFLT_RELATED_OBJECTS FltObjects, _Flt_CompletionContext_Outptr_ PVOID *CompletionContext)
{
    PGUARD_CONTEXT context;

    UNREFERENCED_PARAMETER(Data);
    if (!NT_SUCCESS(FltGetStreamContext(FltObjects->Instance, FltObjects->FileObject, (PFLT_CONTEXT *)&context))) {
        return FLT_PREOP_SUCCESS_NO_CALLBACK;
    }
    InterlockedExchange(&context->IsKnown, FALSE);
    *CompletionContext = context;
    return FLT_PREOP_SUCCESS_WITH_CALLBACK;
}

static FLT_POSTOP_CALLBACK_STATUS GuardPostWrite(_Inout_ PFLT_CALLBACK_DATA Data, _In_ PCFLT_RELATED_OBJECTS FltObjects, _In_opt_ PVOID CompletionContext,
                                                 _In_ FLT_POST_OPERATION_FLAGS Flags)
{
    PGUARD_CONTEXT context = CompletionContext;

    UNREFERENCED_PARAMETER(Data);
    UNREFERENCED_PARAMETER(FltObjects);
    UNREFERENCED_PARAMETER(Flags);
    InterlockedExchange(&context->IsKnown, FALSE);
    FltReleaseContext(context);
    return FLT_POSTOP_FINISHED_PROCESSING;
}

/* ---- Sections. */
static BOOLEAN GuardIsForExecution(_In_ PFLT_CALLBACK_DATA Data)
{
    ULONG protection = Data->Iopb->Parameters.AcquireForSectionSynchronization.PageProtection;

    return Data->Iopb->Parameters.AcquireForSectionSynchronization.SyncType == SyncTypeCreateSection &&
           FlagOn(protection, PAGE_EXECUTE | PAGE_EXECUTE_READ | PAGE_EXECUTE_READWRITE | PAGE_EXECUTE_WRITECOPY);
}

static BOOLEAN GuardIsProgram(_In_ PCFLT_RELATED_OBJECTS FltObjects)
{
    PGUARD_CONTEXT context;
    BOOLEAN isProgram;

    if (!NT_SUCCESS(GuardGetContext(FltObjects, &context))) {
        return GuardRead(FltObjects);
    }
    if (InterlockedCompareExchange(&context->IsKnown, FALSE, FALSE)) {
        isProgram = InterlockedCompareExchange(&context->IsProgram, FALSE, FALSE) != 0;
    } else {
        isProgram = GuardRead(FltObjects);
        InterlockedExchange(&context->IsProgram, isProgram);
        InterlockedExchange(&context->IsKnown, TRUE);
    }
    FltReleaseContext(context);
    return isProgram;
}

static FLT_PREOP_CALLBACK_STATUS GuardPreAcquire(_Inout_ PFLT_CALLBACK_DATA Data, _In_ PCFLT_RELATED_OBJECTS FltObjects, _Flt_CompletionContext_Outptr_ PVOID *CompletionContext)
{
    UNREFERENCED_PARAMETER(CompletionContext);
    if (!GuardIsForExecution(Data) || !GuardIsProgram(FltObjects)) {
        return FLT_PREOP_SUCCESS_NO_CALLBACK;
    }
    InterlockedIncrement(&gSections);
    Data->IoStatus.Status = STATUS_ACCESS_DENIED;
    Data->IoStatus.Information = 0;
    return FLT_PREOP_COMPLETE;
}

/* ---- Control codes. */
static FLT_PREOP_CALLBACK_STATUS GuardPreControl(_Inout_ PFLT_CALLBACK_DATA Data, _In_ PCFLT_RELATED_OBJECTS FltObjects, _Flt_CompletionContext_Outptr_ PVOID *CompletionContext)
{
    UNREFERENCED_PARAMETER(FltObjects);
    UNREFERENCED_PARAMETER(CompletionContext);
    switch (Data->Iopb->Parameters.FileSystemControl.Common.FsControlCode) {
    case FSCTL_SET_REPARSE_POINT:
    case FSCTL_SET_SPARSE:
    case FSCTL_OFFLOAD_WRITE:
        InterlockedIncrement(&gCodes);
        Data->IoStatus.Status = STATUS_ACCESS_DENIED;
        Data->IoStatus.Information = 0;
        return FLT_PREOP_COMPLETE;
    default:
        return FLT_PREOP_SUCCESS_NO_CALLBACK;
    }
}

/* ---- The filter. */
static NTSTATUS GuardQueryTeardown(_In_ PCFLT_RELATED_OBJECTS FltObjects, _In_ FLT_INSTANCE_QUERY_TEARDOWN_FLAGS Flags)
{
    UNREFERENCED_PARAMETER(FltObjects);
    UNREFERENCED_PARAMETER(Flags);
    return STATUS_SUCCESS;
}

static NTSTATUS GuardUnload(_In_ FLT_FILTER_UNLOAD_FLAGS Flags)
{
    UNREFERENCED_PARAMETER(Flags);
    FltUnregisterFilter(gFilterHandle);
    DbgPrint("SectionGuard: %d sections and %d control codes denied\n", gSections, gCodes);
    return STATUS_SUCCESS;
}

CONST FLT_OPERATION_REGISTRATION Callbacks[] = {{IRP_MJ_WRITE, 0, GuardPreWrite, GuardPostWrite},
                                                {IRP_MJ_FILE_SYSTEM_CONTROL, 0, GuardPreControl, NULL},
                                                {IRP_MJ_ACQUIRE_FOR_SECTION_SYNCHRONIZATION, 0, GuardPreAcquire, NULL},
                                                {IRP_MJ_OPERATION_END}};
CONST FLT_CONTEXT_REGISTRATION Contexts[] = {{FLT_STREAM_CONTEXT, 0, NULL, sizeof(GUARD_CONTEXT), GUARD_CONTEXT_TAG}, {FLT_CONTEXT_END}};
CONST FLT_REGISTRATION FilterRegistration = {sizeof(FLT_REGISTRATION), FLT_REGISTRATION_VERSION, 0, Contexts, Callbacks, GuardUnload, NULL, GuardQueryTeardown};

NTSTATUS DriverEntry(_In_ PDRIVER_OBJECT DriverObject, _In_ PUNICODE_STRING RegistryPath)
{
    NTSTATUS status = FltRegisterFilter(DriverObject, &FilterRegistration, &gFilterHandle);

    UNREFERENCED_PARAMETER(RegistryPath);
    if (NT_SUCCESS(status)) {
        status = FltStartFiltering(gFilterHandle);
        if (!NT_SUCCESS(status)) {
            FltUnregisterFilter(gFilterHandle);
        }
    }
    return status;
}
