/* Asks in paging I/O for what waits for that: a file `read` is read by the cache in a paging read, a file `grow` is made larger there, a file `flush` is flushed in a paging write, and a file `past` is
 * written past the cache there, as no paging I/O. A file `paged` is so as paging I/O, which is right. A file `odd` is written to no whole sectors. */
#include <fltKernel.h>

static PFLT_FILTER gFilter;

static BOOLEAN Is(PCFLT_RELATED_OBJECTS FltObjects, PFLT_CALLBACK_DATA Data, PCWSTR Name)
{
    UNICODE_STRING name;

    RtlInitUnicodeString(&name, Name);
    return FlagOn(Data->Iopb->IrpFlags, IRP_PAGING_IO) && RtlEqualUnicodeString(&FltObjects->FileObject->FileName, &name, TRUE);
}

static FLT_PREOP_CALLBACK_STATUS PreRead(PFLT_CALLBACK_DATA Data, PCFLT_RELATED_OBJECTS FltObjects, PVOID *CompletionContext)
{
    LARGE_INTEGER place = {0};
    UCHAR bytes[4] = {0};
    ULONG done;

    UNREFERENCED_PARAMETER(CompletionContext);
    if (Is(FltObjects, Data, L"\\read")) {
        FltReadFile(FltObjects->Instance, FltObjects->FileObject, &place, sizeof(bytes), bytes, FLTFL_IO_OPERATION_DO_NOT_UPDATE_BYTE_OFFSET, &done, NULL, NULL);
    }
    if (Is(FltObjects, Data, L"\\grow")) {
        place.QuadPart = 100000;
        FltWriteFile(FltObjects->Instance, FltObjects->FileObject, &place, sizeof(bytes), bytes, FLTFL_IO_OPERATION_DO_NOT_UPDATE_BYTE_OFFSET, &done, NULL, NULL);
    }
    return FLT_PREOP_SUCCESS_NO_CALLBACK;
}

static VOID WriteAside(PFLT_CALLBACK_DATA Data, PCFLT_RELATED_OBJECTS FltObjects, FLT_IO_OPERATION_FLAGS Flags)
{
    PFLT_IO_PARAMETER_BLOCK asked = Data->Iopb;
    ULONG length = asked->Parameters.Write.Length, done;
    LARGE_INTEGER place = asked->Parameters.Write.ByteOffset;
    PUCHAR bytes = FltAllocatePoolAlignedWithTag(FltObjects->Instance, NonPagedPoolNx, length, 'rerR');

    if (bytes == NULL) {
        return;
    }
    RtlFillMemory(bytes, length, 'x');
    FltWriteFile(FltObjects->Instance, FltObjects->FileObject, &place, length, bytes, FLTFL_IO_OPERATION_NON_CACHED | FLTFL_IO_OPERATION_DO_NOT_UPDATE_BYTE_OFFSET | Flags, &done, NULL, NULL);
    FltFreePoolAlignedWithTag(FltObjects->Instance, bytes, 'rerR');
}

static FLT_PREOP_CALLBACK_STATUS PreWrite(PFLT_CALLBACK_DATA Data, PCFLT_RELATED_OBJECTS FltObjects, PVOID *CompletionContext)
{
    UNREFERENCED_PARAMETER(CompletionContext);
    if (Is(FltObjects, Data, L"\\flush")) {
        FltFlushBuffers(FltObjects->Instance, FltObjects->FileObject);
    }
    if (Is(FltObjects, Data, L"\\past")) {
        WriteAside(Data, FltObjects, 0);
    }
    if (Is(FltObjects, Data, L"\\odd")) {
        Data->Iopb->Parameters.Write.ByteOffset.QuadPart += 1;
        FltSetCallbackDataDirty(Data);
    }
    if (Is(FltObjects, Data, L"\\paged")) {
        WriteAside(Data, FltObjects, FLTFL_IO_OPERATION_PAGING);
        Data->IoStatus.Status = STATUS_SUCCESS;
        Data->IoStatus.Information = Data->Iopb->Parameters.Write.Length;
        return FLT_PREOP_COMPLETE;
    }
    return FLT_PREOP_SUCCESS_NO_CALLBACK;
}

static NTSTATUS Unload(FLT_FILTER_UNLOAD_FLAGS Flags)
{
    UNREFERENCED_PARAMETER(Flags);
    FltUnregisterFilter(gFilter);
    return STATUS_SUCCESS;
}

static const FLT_OPERATION_REGISTRATION gOperations[] = {{IRP_MJ_READ, 0, PreRead, NULL}, {IRP_MJ_WRITE, 0, PreWrite, NULL}, {IRP_MJ_OPERATION_END}};
static const FLT_REGISTRATION gRegistration = {sizeof(FLT_REGISTRATION), FLT_REGISTRATION_VERSION, 0, NULL, gOperations, Unload};

NTSTATUS DriverEntry(PDRIVER_OBJECT DriverObject, PUNICODE_STRING RegistryPath)
{
    NTSTATUS status = FltRegisterFilter(DriverObject, &gRegistration, &gFilter);

    UNREFERENCED_PARAMETER(RegistryPath);
    if (NT_SUCCESS(status)) {
        status = FltStartFiltering(gFilter);
        if (!NT_SUCCESS(status)) {
            FltUnregisterFilter(gFilter);
        }
    }
    return status;
}
