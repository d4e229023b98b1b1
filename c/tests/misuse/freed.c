/* It reads and writes memory that it gave back: a context behind its last release, a pool's memory, a name. The offset of a read says which. */
#include <fltKernel.h>

#define FREED_TAG 'derF'

typedef struct _COUNT {
    LONG Reads;
    LONG Pad[15];
} COUNT, *PCOUNT;

typedef struct _RECORD {
    LONG Number;
    struct _RECORD *Next;
} RECORD, *PRECORD;

static PFLT_FILTER gFilterHandle;
static PCOUNT gKept;
static volatile LONG gSeen;

static VOID ReadContext(PCFLT_RELATED_OBJECTS FltObjects)
{
    PCOUNT count;

    if (!NT_SUCCESS(FltAllocateContext(FltObjects->Filter, FLT_STREAM_CONTEXT, sizeof(COUNT), PagedPool, (PFLT_CONTEXT *)&count))) {
        return;
    }
    count->Reads = 7;
    FltReleaseContext(count);
    gSeen = count->Reads;
}

static VOID KeepContext(PCFLT_RELATED_OBJECTS FltObjects)
{
    if (NT_SUCCESS(FltAllocateContext(FltObjects->Filter, FLT_STREAM_CONTEXT, sizeof(COUNT), NonPagedPool, (PFLT_CONTEXT *)&gKept))) {
        gKept->Reads = 1;
        FltReleaseContext(gKept);
    }
}

static VOID ReadPool(VOID)
{
    PRECORD first = (PRECORD)ExAllocatePoolWithTag(NonPagedPool, sizeof(RECORD), FREED_TAG);

    if (first) {
        first->Next = NULL;
        ExFreePoolWithTag(first, FREED_TAG);
        if (first->Next != NULL) {
            gSeen++;
        }
    }
}

static VOID WriteLarge(VOID)
{
    PUCHAR bytes = (PUCHAR)ExAllocatePoolWithTag(PagedPool, 20000, FREED_TAG);

    if (bytes) {
        ExFreePoolWithTag(bytes, FREED_TAG);
        bytes[10000] = 1;
        bytes[10001] = 2;
    }
}

static VOID ReadName(PFLT_CALLBACK_DATA Data)
{
    PFLT_FILE_NAME_INFORMATION name;

    if (NT_SUCCESS(FltGetFileNameInformation(Data, FLT_FILE_NAME_OPENED | FLT_FILE_NAME_QUERY_DEFAULT, &name))) {
        FltReleaseFileNameInformation(name);
        gSeen = name->Name.Length;
    }
}

static FLT_PREOP_CALLBACK_STATUS PreRead(PFLT_CALLBACK_DATA Data, PCFLT_RELATED_OBJECTS FltObjects, PVOID *CompletionContext)
{
    UNREFERENCED_PARAMETER(CompletionContext);
    switch (Data->Iopb->Parameters.Read.ByteOffset.QuadPart) {
    case 0:
        ReadContext(FltObjects);
        break;
    case 1:
        ReadPool();
        break;
    case 2:
        WriteLarge();
        break;
    case 3:
        ReadName(Data);
        break;
    case 4:
        KeepContext(FltObjects);
        break;
    default: /* Behind the return of the callback that released it. */
        InterlockedIncrement(&gKept->Reads);
        break;
    }
    return FLT_PREOP_SUCCESS_NO_CALLBACK;
}

static NTSTATUS Unload(FLT_FILTER_UNLOAD_FLAGS Flags)
{
    UNREFERENCED_PARAMETER(Flags);
    FltUnregisterFilter(gFilterHandle);
    return STATUS_SUCCESS;
}

static CONST FLT_CONTEXT_REGISTRATION Contexts[] = {{FLT_STREAM_CONTEXT, 0, NULL, sizeof(COUNT), FREED_TAG}, {FLT_CONTEXT_END}};
static CONST FLT_OPERATION_REGISTRATION Callbacks[] = {{IRP_MJ_READ, 0, PreRead}, {IRP_MJ_OPERATION_END}};
static CONST FLT_REGISTRATION Registration = {sizeof(FLT_REGISTRATION), FLT_REGISTRATION_VERSION, 0, Contexts, Callbacks, Unload};

NTSTATUS DriverEntry(PDRIVER_OBJECT DriverObject, PUNICODE_STRING RegistryPath)
{
    NTSTATUS status;

    UNREFERENCED_PARAMETER(RegistryPath);
    status = FltRegisterFilter(DriverObject, &Registration, &gFilterHandle);
    return NT_SUCCESS(status) ? FltStartFiltering(gFilterHandle) : status;
}
