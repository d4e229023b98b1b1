/* What is gone, or was never there as it is used: each flush takes the next step. A list's entry is removed twice, memory goes to another lookaside list, a resource lies in memory that is freed or is
 * initialized twice, an instance is used behind its detach. A lookaside list and a resource are never deleted. */
#include <fltKernel.h>

#define GONE_TAG 'enoG'

static PFLT_FILTER gFilter;
static PFLT_INSTANCE gInstance;
static LIST_ENTRY gList, gEntries[3];
static NPAGED_LOOKASIDE_LIST gSmall, gLarge;
static ERESOURCE gResource;
static ULONG gStep;

static VOID Step(ULONG Number)
{
    PERESOURCE resource;
    PFLT_CONTEXT context;
    PVOID memory;
    ULONG i;

    switch (Number) {
    case 0:
        InitializeListHead(&gList);
        for (i = 0; i < 3; i++) {
            InsertTailList(&gList, &gEntries[i]);
        }
        RemoveEntryList(&gEntries[1]);
        RemoveEntryList(&gEntries[1]);
        break;
    case 1:
        memory = ExAllocateFromNPagedLookasideList(&gSmall);
        ExFreeToNPagedLookasideList(&gLarge, memory);
        break;
    case 2:
        resource = ExAllocatePoolWithTag(NonPagedPool, sizeof(ERESOURCE), GONE_TAG);
        ExInitializeResourceLite(resource);
        ExFreePoolWithTag(resource, GONE_TAG);
        break;
    case 3:
        ExInitializeResourceLite(&gResource);
        break;
    case 4:
        if (NT_SUCCESS(FltGetInstanceContext(gInstance, &context))) {
            FltReleaseContext(context);
        }
        break;
    case 5:
        if (NT_SUCCESS(FltObjectReference(gInstance))) {
            FltObjectDereference(gInstance);
        }
        break;
    }
}

static FLT_PREOP_CALLBACK_STATUS PreFlush(_Inout_ PFLT_CALLBACK_DATA Data, _In_ PCFLT_RELATED_OBJECTS FltObjects, _Flt_CompletionContext_Outptr_ PVOID *CompletionContext)
{
    UNREFERENCED_PARAMETER(Data);
    UNREFERENCED_PARAMETER(CompletionContext);
    if (gInstance == NULL) {
        gInstance = FltObjects->Instance;
    }
    Step(gStep++);
    return FLT_PREOP_SUCCESS_NO_CALLBACK;
}

static NTSTATUS QueryTeardown(_In_ PCFLT_RELATED_OBJECTS FltObjects, _In_ FLT_INSTANCE_QUERY_TEARDOWN_FLAGS Flags)
{
    UNREFERENCED_PARAMETER(FltObjects);
    UNREFERENCED_PARAMETER(Flags);
    return STATUS_SUCCESS;
}

static NTSTATUS Unload(_In_ FLT_FILTER_UNLOAD_FLAGS Flags)
{
    UNREFERENCED_PARAMETER(Flags);
    FltUnregisterFilter(gFilter);
    ExDeleteNPagedLookasideList(&gSmall);
    return STATUS_SUCCESS;
}

static const FLT_CONTEXT_REGISTRATION Contexts[] = {{FLT_INSTANCE_CONTEXT, 0, NULL, 8, GONE_TAG}, {FLT_CONTEXT_END}};
static const FLT_OPERATION_REGISTRATION Operations[] = {{IRP_MJ_FLUSH_BUFFERS, 0, PreFlush}, {IRP_MJ_OPERATION_END}};

NTSTATUS DriverEntry(_In_ PDRIVER_OBJECT DriverObject, _In_ PUNICODE_STRING RegistryPath)
{
    FLT_REGISTRATION registration = {.Size = sizeof(FLT_REGISTRATION), .Version = FLT_REGISTRATION_VERSION, .ContextRegistration = Contexts, .OperationRegistration = Operations, .FilterUnloadCallback = Unload, .InstanceQueryTeardownCallback = QueryTeardown};
    NTSTATUS status;

    UNREFERENCED_PARAMETER(RegistryPath);
    ExInitializeNPagedLookasideList(&gSmall, NULL, NULL, 0, 16, GONE_TAG, 0);
    ExInitializeNPagedLookasideList(&gLarge, NULL, NULL, 0, 256, GONE_TAG, 0);
    ExInitializeResourceLite(&gResource);
    status = FltRegisterFilter(DriverObject, &registration, &gFilter);
    return NT_SUCCESS(status) ? FltStartFiltering(gFilter) : status;
}
