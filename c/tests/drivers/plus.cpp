// A driver in C++, of which the headers are extern "C".
#include <fltKernel.h>
#include <ntstrsafe.h>

namespace
{
PFLT_FILTER filter;

struct Count {
    LONG reads;
};

FLT_PREOP_CALLBACK_STATUS PreRead(PFLT_CALLBACK_DATA Data, PCFLT_RELATED_OBJECTS FltObjects, PVOID *CompletionContext)
{
    UNREFERENCED_PARAMETER(CompletionContext);
    Count *count = nullptr;
    if (NT_SUCCESS(FltGetInstanceContext(FltObjects->Instance, reinterpret_cast<PFLT_CONTEXT *>(&count)))) {
        InterlockedIncrement(&count->reads);
        DbgPrint("C++: %s, read %d of %u bytes\n", FltGetIrpName(Data->Iopb->MajorFunction), count->reads, Data->Iopb->Parameters.Read.Length);
        FltReleaseContext(count);
    }
    return FLT_PREOP_SUCCESS_NO_CALLBACK;
}

NTSTATUS Setup(PCFLT_RELATED_OBJECTS FltObjects, FLT_INSTANCE_SETUP_FLAGS, DEVICE_TYPE, FLT_FILESYSTEM_TYPE)
{
    Count *count = nullptr;
    NTSTATUS status = FltAllocateContext(filter, FLT_INSTANCE_CONTEXT, sizeof(Count), NonPagedPool, reinterpret_cast<PFLT_CONTEXT *>(&count));
    if (NT_SUCCESS(status)) {
        count->reads = 0;
        status = FltSetInstanceContext(FltObjects->Instance, FLT_SET_CONTEXT_KEEP_IF_EXISTS, count, nullptr);
        FltReleaseContext(count);
    }
    return status;
}

NTSTATUS Unload(FLT_FILTER_UNLOAD_FLAGS)
{
    FltUnregisterFilter(filter);
    return STATUS_SUCCESS;
}

const FLT_OPERATION_REGISTRATION operations[] = {{IRP_MJ_READ, 0, PreRead, nullptr, nullptr}, {IRP_MJ_OPERATION_END}};
const FLT_CONTEXT_REGISTRATION contexts[] = {{FLT_INSTANCE_CONTEXT, 0, nullptr, sizeof(Count), 'sulp'}, {FLT_CONTEXT_END}};
const FLT_REGISTRATION registration = {sizeof(FLT_REGISTRATION), FLT_REGISTRATION_VERSION, 0, contexts, operations, Unload, Setup};
}

extern "C" NTSTATUS DriverEntry(PDRIVER_OBJECT DriverObject, PUNICODE_STRING)
{
    UNICODE_STRING text = RTL_CONSTANT_STRING(L"wide");
    WCHAR room[16];
    RtlStringCchPrintfW(room, 16, L"%wZ %d", &text, 17);
    DbgPrint("C++: %ws, %u letters\n", room, static_cast<ULONG>(wcslen(room)));
    NTSTATUS status = FltRegisterFilter(DriverObject, &registration, &filter);
    return NT_SUCCESS(status) ? FltStartFiltering(filter) : status;
}
