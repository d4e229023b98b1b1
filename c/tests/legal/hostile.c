/* A program's own memory as drivers may touch it: in a block around the call of a helper, in a block around another one's end, by pages that were locked, and a message's copy; the memory of who asks in
 * the kernel, and what the system has copied, need no block. Nor does a call that doesn't raise. */
#include <fltKernel.h>

#define HOSTILE_TAG 'tsoH'

static PFLT_FILTER gFilter;
static LONG gSum;

static UCHAR First(const UCHAR *Bytes)
{
    return Bytes[0];
}

/* The block is the caller's. */
static NTSTATUS Sum(const UCHAR *Bytes, ULONG Length)
{
    NTSTATUS status = STATUS_SUCCESS;
    UCHAR copy[8];

    __try {
        __try {
            ProbeForRead(Bytes, Length, sizeof(UCHAR));
            RtlCopyMemory(copy, Bytes, min(Length, sizeof(copy)));
        } __finally {
            InterlockedIncrement(&gSum);
        }
        InterlockedExchangeAdd(&gSum, First(Bytes));
    } __except (EXCEPTION_EXECUTE_HANDLER) {
        status = GetExceptionCode();
    }
    return status;
}

static FLT_PREOP_CALLBACK_STATUS PreWrite(PFLT_CALLBACK_DATA Data, PCFLT_RELATED_OBJECTS FltObjects, PVOID *CompletionContext)
{
    PUCHAR bytes = Data->Iopb->Parameters.Write.WriteBuffer;

    UNREFERENCED_PARAMETER(FltObjects);
    UNREFERENCED_PARAMETER(CompletionContext);
    if (Data->Iopb->Parameters.Write.Length == 0 || FlagOn(Data->Iopb->IrpFlags, IRP_PAGING_IO)) {
        return FLT_PREOP_SUCCESS_NO_CALLBACK;
    }
    if (Data->RequestorMode == KernelMode) {
        InterlockedExchangeAdd(&gSum, bytes[0]);
    } else if (!NT_SUCCESS(Sum(bytes, Data->Iopb->Parameters.Write.Length))) {
        return FLT_PREOP_SUCCESS_NO_CALLBACK;
    }
    if (NT_SUCCESS(FltLockUserBuffer(Data)) && Data->Iopb->Parameters.Write.MdlAddress != NULL) {
        bytes = MmGetSystemAddressForMdlSafe(Data->Iopb->Parameters.Write.MdlAddress, NormalPagePriority | MdlMappingNoExecute);
        if (bytes != NULL) {
            InterlockedExchangeAdd(&gSum, bytes[0]);
        }
    }
    return FLT_PREOP_SUCCESS_NO_CALLBACK;
}

/* What a driver writes itself comes from a pool, to whoever stands below. */
static FLT_PREOP_CALLBACK_STATUS PreFlush(PFLT_CALLBACK_DATA Data, PCFLT_RELATED_OBJECTS FltObjects, PVOID *CompletionContext)
{
    PUCHAR room = ExAllocatePoolWithQuotaTag((POOL_TYPE)(NonPagedPool | POOL_QUOTA_FAIL_INSTEAD_OF_RAISE), 8, HOSTILE_TAG);
    LARGE_INTEGER place = {0};

    UNREFERENCED_PARAMETER(Data);
    UNREFERENCED_PARAMETER(CompletionContext);
    if (room == NULL) {
        return FLT_PREOP_SUCCESS_NO_CALLBACK;
    }
    RtlFillMemory(room, 8, 'x');
    FltWriteFile(FltObjects->Instance, FltObjects->FileObject, &place, 8, room, FLTFL_IO_OPERATION_DO_NOT_UPDATE_BYTE_OFFSET, NULL, NULL, NULL);
    ExFreePoolWithTag(room, HOSTILE_TAG);
    return FLT_PREOP_SUCCESS_NO_CALLBACK;
}

static FLT_PREOP_CALLBACK_STATUS PreSet(PFLT_CALLBACK_DATA Data, PCFLT_RELATED_OBJECTS FltObjects, PVOID *CompletionContext)
{
    UNREFERENCED_PARAMETER(FltObjects);
    UNREFERENCED_PARAMETER(CompletionContext);
    if (Data->Iopb->Parameters.SetFileInformation.FileInformationClass == FileEndOfFileInformation) {
        InterlockedExchangeAdd(&gSum, (LONG)((PFILE_END_OF_FILE_INFORMATION)Data->Iopb->Parameters.SetFileInformation.InfoBuffer)->EndOfFile.QuadPart);
    }
    return FLT_PREOP_SUCCESS_NO_CALLBACK;
}

static FLT_PREOP_CALLBACK_STATUS PreDirectory(PFLT_CALLBACK_DATA Data, PCFLT_RELATED_OBJECTS FltObjects, PVOID *CompletionContext)
{
    UNREFERENCED_PARAMETER(FltObjects);
    UNREFERENCED_PARAMETER(CompletionContext);
    return Data->Iopb->MinorFunction == IRP_MN_QUERY_DIRECTORY ? FLT_PREOP_SYNCHRONIZE : FLT_PREOP_SUCCESS_NO_CALLBACK;
}

static FLT_POSTOP_CALLBACK_STATUS PostDirectory(PFLT_CALLBACK_DATA Data, PCFLT_RELATED_OBJECTS FltObjects, PVOID CompletionContext, FLT_POST_OPERATION_FLAGS Flags)
{
    UNREFERENCED_PARAMETER(FltObjects);
    UNREFERENCED_PARAMETER(CompletionContext);
    if (!FlagOn(Flags, FLTFL_POST_OPERATION_DRAINING) && NT_SUCCESS(Data->IoStatus.Status) && Data->IoStatus.Information > 0) {
        Sum(Data->Iopb->Parameters.DirectoryControl.QueryDirectory.DirectoryBuffer, (ULONG)Data->IoStatus.Information);
    }
    return FLT_POSTOP_FINISHED_PROCESSING;
}

static NTSTATUS Unload(FLT_FILTER_UNLOAD_FLAGS Flags)
{
    UNREFERENCED_PARAMETER(Flags);
    FltUnregisterFilter(gFilter);
    return STATUS_SUCCESS;
}

static const FLT_OPERATION_REGISTRATION gOperations[] = {{IRP_MJ_WRITE, 0, PreWrite, NULL},
                                                         {IRP_MJ_FLUSH_BUFFERS, 0, PreFlush, NULL},
                                                         {IRP_MJ_SET_INFORMATION, 0, PreSet, NULL},
                                                         {IRP_MJ_DIRECTORY_CONTROL, 0, PreDirectory, PostDirectory},
                                                         {IRP_MJ_OPERATION_END}};
static const FLT_REGISTRATION gRegistration = {sizeof(FLT_REGISTRATION), FLT_REGISTRATION_VERSION, 0, NULL, gOperations, Unload};

NTSTATUS DriverEntry(PDRIVER_OBJECT DriverObject, PUNICODE_STRING RegistryPath)
{
    NTSTATUS status = FltRegisterFilter(DriverObject, &gRegistration, &gFilter);

    UNREFERENCED_PARAMETER(RegistryPath);
    if (NT_SUCCESS(status)) {
        status = FltStartFiltering(gFilter);
        if (!NT_SUCCESS(status)) {
            FltUnregisterFilter(gFilter);
        }
    }
    return status;
}
