/* ExAcquireSharedWaitForExclusive by an owner of the resource: it waits for the writer, which waits for it. */
#include "small.h"

static ERESOURCE gResource;
static LONG gData;

static FLT_PREOP_CALLBACK_STATUS PreRead(PFLT_CALLBACK_DATA Data, PCFLT_RELATED_OBJECTS FltObjects, PVOID *CompletionContext)
{
    UNREFERENCED_PARAMETER(Data);
    UNREFERENCED_PARAMETER(FltObjects);
    UNREFERENCED_PARAMETER(CompletionContext);
    KeEnterCriticalRegion();
    ExAcquireResourceSharedLite(&gResource, TRUE);
    ExAcquireSharedWaitForExclusive(&gResource, TRUE);
    ExReleaseResourceLite(&gResource);
    ExReleaseResourceLite(&gResource);
    KeLeaveCriticalRegion();
    return FLT_PREOP_SUCCESS_NO_CALLBACK;
}

static FLT_PREOP_CALLBACK_STATUS PreFlush(PFLT_CALLBACK_DATA Data, PCFLT_RELATED_OBJECTS FltObjects, PVOID *CompletionContext)
{
    UNREFERENCED_PARAMETER(Data);
    UNREFERENCED_PARAMETER(FltObjects);
    UNREFERENCED_PARAMETER(CompletionContext);
    KeEnterCriticalRegion();
    ExAcquireResourceExclusiveLite(&gResource, TRUE);
    gData++;
    ExReleaseResourceLite(&gResource);
    KeLeaveCriticalRegion();
    return FLT_PREOP_SUCCESS_NO_CALLBACK;
}

static const FLT_OPERATION_REGISTRATION Operations[] = {{IRP_MJ_READ, 0, PreRead}, {IRP_MJ_FLUSH_BUFFERS, 0, PreFlush}, {IRP_MJ_OPERATION_END}};

NTSTATUS DriverEntry(PDRIVER_OBJECT DriverObject, PUNICODE_STRING RegistryPath)
{
    UNREFERENCED_PARAMETER(RegistryPath);
    ExInitializeResourceLite(&gResource);
    return Register(DriverObject, Operations, NULL, NULL);
}
