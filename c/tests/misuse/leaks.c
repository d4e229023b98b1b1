/* Mistakes with references, by the names of files: leak, twice, gone, other, kinds and many. What the host has to tell of each stands in c/expected/leaks.out. */
#include <fltKernel.h>

typedef struct _COUNT {
    ULONG Reads;
} COUNT, *PCOUNT;

PFLT_FILTER gFilterHandle;
static PCOUNT gKept;
static FILE_OBJECT gOther;

static BOOLEAN IsNamed(PCFLT_RELATED_OBJECTS FltObjects, PCWSTR Name)
{
    UNICODE_STRING name;
    RtlInitUnicodeString(&name, Name);
    return FltObjects->FileObject != NULL && RtlEqualUnicodeString(&FltObjects->FileObject->FileName, &name, FALSE);
}

/* A context of another kind, and another's file. */
static VOID MixUp(PCFLT_RELATED_OBJECTS FltObjects, PCOUNT Count)
{
    PCOUNT found;

    FltSetInstanceContext(FltObjects->Instance, FLT_SET_CONTEXT_KEEP_IF_EXISTS, Count, NULL);
    FltGetStreamContext(FltObjects->Instance, &gOther, (PFLT_CONTEXT *)&found);
}

/* It holds one reference, and asks for 16 more: the last one is refused. */
static VOID TakeMany(PCOUNT Count)
{
    int i;

    for (i = 0; i < 16; i++) {
        FltReferenceContext(Count);
    }
    for (i = 0; i < 15; i++) {
        FltReleaseContext(Count);
    }
}

static FLT_POSTOP_CALLBACK_STATUS PostCreate(PFLT_CALLBACK_DATA Data, PCFLT_RELATED_OBJECTS FltObjects, PVOID CompletionContext,
                                             FLT_POST_OPERATION_FLAGS Flags)
{
    PCOUNT count;

    UNREFERENCED_PARAMETER(CompletionContext);
    UNREFERENCED_PARAMETER(Flags);
    if (!NT_SUCCESS(Data->IoStatus.Status) ||
        !NT_SUCCESS(FltAllocateContext(gFilterHandle, FLT_STREAM_CONTEXT, sizeof(COUNT), NonPagedPool, (PFLT_CONTEXT *)&count))) {
        return FLT_POSTOP_FINISHED_PROCESSING;
    }
    count->Reads = 0;
    FltSetStreamContext(FltObjects->Instance, FltObjects->FileObject, FLT_SET_CONTEXT_KEEP_IF_EXISTS, count, NULL);
    if (IsNamed(FltObjects, L"\\gone")) {
        gKept = count;
    } else if (IsNamed(FltObjects, L"\\kinds")) {
        MixUp(FltObjects, count);
    } else if (IsNamed(FltObjects, L"\\many")) {
        TakeMany(count);
    }
    if (!IsNamed(FltObjects, L"\\leak")) {
        FltReleaseContext(count);
    }
    return FLT_POSTOP_FINISHED_PROCESSING;
}

static FLT_PREOP_CALLBACK_STATUS PreRead(PFLT_CALLBACK_DATA Data, PCFLT_RELATED_OBJECTS FltObjects, PVOID *CompletionContext)
{
    PCOUNT count;

    UNREFERENCED_PARAMETER(Data);
    UNREFERENCED_PARAMETER(CompletionContext);
    if (IsNamed(FltObjects, L"\\other")) {
        /* It kept the pointer, and the context was cleaned up with its stream. */
        FltReferenceContext(gKept);
        return FLT_PREOP_SUCCESS_NO_CALLBACK;
    }
    if (!NT_SUCCESS(FltGetStreamContext(FltObjects->Instance, FltObjects->FileObject, (PFLT_CONTEXT *)&count))) {
        return FLT_PREOP_SUCCESS_NO_CALLBACK;
    }
    count->Reads++;
    FltReleaseContext(count);
    if (IsNamed(FltObjects, L"\\twice")) {
        FltReleaseContext(count);
    }
    return FLT_PREOP_SUCCESS_NO_CALLBACK;
}

static NTSTATUS Unload(FLT_FILTER_UNLOAD_FLAGS Flags)
{
    UNREFERENCED_PARAMETER(Flags);
    FltUnregisterFilter(gFilterHandle);
    return STATUS_SUCCESS;
}

CONST FLT_OPERATION_REGISTRATION Callbacks[] = {{IRP_MJ_CREATE, 0, NULL, PostCreate}, {IRP_MJ_READ, 0, PreRead, NULL}, {IRP_MJ_OPERATION_END}};
CONST FLT_CONTEXT_REGISTRATION Contexts[] = {{FLT_STREAM_CONTEXT, 0, NULL, sizeof(COUNT), 'tnuC'}, {FLT_CONTEXT_END}};
CONST FLT_REGISTRATION Registration = {sizeof(FLT_REGISTRATION), FLT_REGISTRATION_VERSION, 0, Contexts, Callbacks, Unload, NULL, NULL, NULL, NULL};

NTSTATUS DriverEntry(PDRIVER_OBJECT DriverObject, PUNICODE_STRING RegistryPath)
{
    PCOUNT count;
    NTSTATUS status;

    UNREFERENCED_PARAMETER(RegistryPath);
    status = FltRegisterFilter(DriverObject, &Registration, &gFilterHandle);
    if (!NT_SUCCESS(status)) {
        return status;
    }
    /* In no callback of an instance. */
    FltAllocateContext(gFilterHandle, FLT_STREAM_CONTEXT, sizeof(COUNT), NonPagedPool, (PFLT_CONTEXT *)&count);
    ExAllocatePoolWithTag(PagedPool, 24, 'tsoL');
    return FltStartFiltering(gFilterHandle);
}
