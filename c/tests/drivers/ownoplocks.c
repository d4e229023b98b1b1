/* A filter that keeps the oplocks of the file \own by itself: requests end in it, and each operation asks whether one is in the way. A flush is answered with what is held, a bit each: batch, any, a
 * cached handle, fast I/O is possible; and a query, with whether the handle has the key of the first one. */
#include <fltKernel.h>

DRIVER_INITIALIZE DriverEntry;
static PFLT_FILTER Filter;
static OPLOCK Oplock;
static PFILE_OBJECT First;
static LONG OpenCount;

static BOOLEAN IsOwn(PCFLT_RELATED_OBJECTS FltObjects)
{
    UNICODE_STRING own = RTL_CONSTANT_STRING(L"\\own");

    return RtlEqualUnicodeString(&FltObjects->FileObject->FileName, &own, TRUE);
}

static VOID GoesOn(PFLT_CALLBACK_DATA Data, PVOID Context)
{
    NTSTATUS status = Data->IoStatus.Status;

    UNREFERENCED_PARAMETER(Context);
    FltCompletePendedPreOperation(Data, NT_SUCCESS(status) ? FLT_PREOP_SUCCESS_WITH_CALLBACK : FLT_PREOP_COMPLETE, NULL);
}

static VOID WillWait(PFLT_CALLBACK_DATA Data, PVOID Context)
{
    UNREFERENCED_PARAMETER(Data);
    InterlockedIncrement((PLONG)Context);
}

static FLT_PREOP_CALLBACK_STATUS PreControl(PFLT_CALLBACK_DATA Data, PCFLT_RELATED_OBJECTS FltObjects, PVOID *CompletionContext)
{
    ULONG code = Data->Iopb->Parameters.FileSystemControl.Common.FsControlCode;

    UNREFERENCED_PARAMETER(CompletionContext);
    if (!IsOwn(FltObjects) || code == FSCTL_SET_ZERO_DATA) {
        return FLT_PREOP_SUCCESS_NO_CALLBACK;
    }
    return FltOplockFsctrlEx(&Oplock, Data, FltOplockIsSharedRequest(Data) ? 0 : (ULONG)OpenCount, 0);
}

static LONG Waiting;

static FLT_PREOP_CALLBACK_STATUS PreAny(PFLT_CALLBACK_DATA Data, PCFLT_RELATED_OBJECTS FltObjects, PVOID *CompletionContext)
{
    UNREFERENCED_PARAMETER(CompletionContext);
    if (!IsOwn(FltObjects)) {
        return FLT_PREOP_SUCCESS_NO_CALLBACK;
    }
    if (!FLT_IS_IRP_OPERATION(Data)) {
        return FltOplockIsFastIoPossible(&Oplock) ? FLT_PREOP_SUCCESS_NO_CALLBACK : FLT_PREOP_DISALLOW_FASTIO;
    }
    return FltCheckOplock(&Oplock, Data, &Waiting, GoesOn, WillWait);
}

static FLT_POSTOP_CALLBACK_STATUS PostAny(PFLT_CALLBACK_DATA Data, PCFLT_RELATED_OBJECTS FltObjects, PVOID CompletionContext, FLT_POST_OPERATION_FLAGS Flags)
{
    UNREFERENCED_PARAMETER(CompletionContext);
    UNREFERENCED_PARAMETER(Flags);
    if (Data->Iopb->MajorFunction == IRP_MJ_CREATE && NT_SUCCESS(Data->IoStatus.Status) && IsOwn(FltObjects)) {
        InterlockedIncrement(&OpenCount);
        InterlockedCompareExchangePointer((PVOID *)&First, FltObjects->FileObject, NULL);
    }
    return FLT_POSTOP_FINISHED_PROCESSING;
}

static FLT_PREOP_CALLBACK_STATUS PreCleanup(PFLT_CALLBACK_DATA Data, PCFLT_RELATED_OBJECTS FltObjects, PVOID *CompletionContext)
{
    UNREFERENCED_PARAMETER(CompletionContext);
    if (IsOwn(FltObjects)) {
        InterlockedDecrement(&OpenCount);
        FltCheckOplock(&Oplock, Data, NULL, NULL, NULL);
    }
    return FLT_PREOP_SUCCESS_NO_CALLBACK;
}

static FLT_PREOP_CALLBACK_STATUS PreFlush(PFLT_CALLBACK_DATA Data, PCFLT_RELATED_OBJECTS FltObjects, PVOID *CompletionContext)
{
    UNREFERENCED_PARAMETER(CompletionContext);
    if (!IsOwn(FltObjects)) {
        return FLT_PREOP_SUCCESS_NO_CALLBACK;
    }
    Data->IoStatus.Status = STATUS_SUCCESS;
    Data->IoStatus.Information = (ULONG_PTR)(FltCurrentBatchOplock(&Oplock) | FltCurrentOplock(&Oplock) << 1 | FltCurrentOplockH(&Oplock) << 2 | FltOplockIsFastIoPossible(&Oplock) << 3 |
                                             FltOplockKeysEqual(FltObjects->FileObject, First) << 4);
    return FLT_PREOP_COMPLETE;
}

/* The first one who asks for the file's security has all oplocks broken, and who sets it those of handles; each waits in the call for nothing. */
static FLT_PREOP_CALLBACK_STATUS PreSecurity(PFLT_CALLBACK_DATA Data, PCFLT_RELATED_OBJECTS FltObjects, PVOID *CompletionContext)
{
    UNREFERENCED_PARAMETER(CompletionContext);
    if (!IsOwn(FltObjects)) {
        return FLT_PREOP_SUCCESS_NO_CALLBACK;
    }
    if (Data->Iopb->MajorFunction == IRP_MJ_QUERY_SECURITY) {
        return FltOplockBreakToNone(&Oplock, Data, &Waiting, GoesOn, WillWait);
    }
    return FltOplockBreakH(&Oplock, Data, 0, &Waiting, GoesOn, WillWait);
}

static NTSTATUS Unload(FLT_FILTER_UNLOAD_FLAGS Flags)
{
    UNREFERENCED_PARAMETER(Flags);
    FltUninitializeOplock(&Oplock);
    FltUnregisterFilter(Filter);
    return STATUS_SUCCESS;
}

static CONST FLT_OPERATION_REGISTRATION Callbacks[] = {{IRP_MJ_CREATE, 0, PreAny, PostAny, NULL},
                                                       {IRP_MJ_READ, 0, PreAny, PostAny, NULL},
                                                       {IRP_MJ_WRITE, 0, PreAny, PostAny, NULL},
                                                       {IRP_MJ_SET_INFORMATION, 0, PreAny, PostAny, NULL},
                                                       {IRP_MJ_LOCK_CONTROL, 0, PreAny, PostAny, NULL},
                                                       {IRP_MJ_CLEANUP, 0, PreCleanup, NULL, NULL},
                                                       {IRP_MJ_FLUSH_BUFFERS, 0, PreFlush, NULL, NULL},
                                                       {IRP_MJ_QUERY_SECURITY, 0, PreSecurity, PostAny, NULL},
                                                       {IRP_MJ_SET_SECURITY, 0, PreSecurity, PostAny, NULL},
                                                       {IRP_MJ_FILE_SYSTEM_CONTROL, 0, PreControl, NULL, NULL},
                                                       {IRP_MJ_OPERATION_END, 0, NULL, NULL, NULL}};

static CONST FLT_REGISTRATION Registration = {sizeof(FLT_REGISTRATION), FLT_REGISTRATION_VERSION, 0, NULL, Callbacks, Unload, NULL, NULL, NULL, NULL, NULL, NULL, NULL, NULL};

NTSTATUS DriverEntry(PDRIVER_OBJECT DriverObject, PUNICODE_STRING RegistryPath)
{
    NTSTATUS status;

    UNREFERENCED_PARAMETER(RegistryPath);
    FltInitializeOplock(&Oplock);
    status = FltRegisterFilter(DriverObject, &Registration, &Filter);
    if (NT_SUCCESS(status)) {
        status = FltStartFiltering(Filter);
        if (!NT_SUCCESS(status)) {
            FltUnregisterFilter(Filter);
        }
    }
    return status;
}
