/* An auditor of processes: it knows each process from its beginning, by its image and its user, counts what it opens and writes, and says so at its end. A process whose image lies
 * below a folder \denied isn't begun. */
#include <fltKernel.h>

#define AUDIT_TAG 'duAP'

typedef struct _AUDIT_PROCESS {
    LIST_ENTRY Links;
    HANDLE Id;
    PUNICODE_STRING Image; /* of SeLocateProcessImageName */
    UNICODE_STRING User;   /* its SID as a text */
    ULONG Opens;
    ULONG Writes;
    ULONG Images;
} AUDIT_PROCESS, *PAUDIT_PROCESS;

PFLT_FILTER gFilterHandle;
static FAST_MUTEX gLock; /* guards the list */
static LIST_ENTRY gProcesses;
static BOOLEAN gWatches;

/* ---- The list. */
static PAUDIT_PROCESS AuditFind(_In_ HANDLE Id)
{
    PLIST_ENTRY link;

    for (link = gProcesses.Flink; link != &gProcesses; link = link->Flink) {
        PAUDIT_PROCESS process = CONTAINING_RECORD(link, AUDIT_PROCESS, Links);
        if (process->Id == Id) {
            return process;
        }
    }
    return NULL;
}

static VOID AuditFree(_In_ PAUDIT_PROCESS Process)
{
    if (Process->Image != NULL) {
        ExFreePool(Process->Image);
    }
    if (Process->User.Buffer != NULL) {
        RtlFreeUnicodeString(&Process->User);
    }
    ExFreePoolWithTag(Process, AUDIT_TAG);
}

static VOID AuditSay(_In_ PAUDIT_PROCESS Process, _In_ PCSTR When)
{
    DbgPrint("ProcessAudit: %u %s: %wZ, %wZ: %u opens, %u writes, %u images\n", HandleToULong(Process->Id), When, Process->Image, &Process->User,
             Process->Opens, Process->Writes, Process->Images);
}

static VOID AuditQueryUser(_In_ PEPROCESS Process, _Inout_ PUNICODE_STRING User)
{
    PACCESS_TOKEN token = PsReferencePrimaryToken(Process);
    PTOKEN_USER user;

    if (NT_SUCCESS(SeQueryInformationToken(token, TokenUser, (PVOID *)&user))) {
        if (!NT_SUCCESS(RtlConvertSidToUnicodeString(User, user->User.Sid, TRUE))) {
            User->Buffer = NULL;
        }
        ExFreePool(user);
    }
    PsDereferencePrimaryToken(token);
}

/* One that began before the driver is met at its first request. */
static VOID AuditAdd(_In_ PEPROCESS Process, _In_ HANDLE Id)
{
    PAUDIT_PROCESS made = ExAllocatePoolZero(PagedPool, sizeof(AUDIT_PROCESS), AUDIT_TAG), there;

    if (made == NULL) {
        return;
    }
    made->Id = Id;
    if (!NT_SUCCESS(SeLocateProcessImageName(Process, &made->Image))) {
        made->Image = NULL;
    }
    AuditQueryUser(Process, &made->User);
    ExAcquireFastMutex(&gLock);
    there = AuditFind(Id);
    if (there == NULL) {
        InsertTailList(&gProcesses, &made->Links);
    }
    ExReleaseFastMutex(&gLock);
    if (there != NULL) {
        AuditFree(made);
    }
}

static VOID AuditEnd(_In_ HANDLE Id)
{
    PAUDIT_PROCESS gone;

    ExAcquireFastMutex(&gLock);
    gone = AuditFind(Id);
    if (gone != NULL) {
        RemoveEntryList(&gone->Links);
    }
    ExReleaseFastMutex(&gLock);
    if (gone != NULL) {
        AuditSay(gone, "ends");
        AuditFree(gone);
    }
}

static BOOLEAN AuditCount(_In_ HANDLE Id, _In_ UCHAR Major)
{
    PAUDIT_PROCESS process;

    ExAcquireFastMutex(&gLock);
    process = AuditFind(Id);
    if (process != NULL) {
        process->Opens += Major == IRP_MJ_CREATE;
        process->Writes += Major == IRP_MJ_WRITE;
        process->Images += Major == IRP_MJ_MAXIMUM_FUNCTION;
    }
    ExReleaseFastMutex(&gLock);
    return process != NULL;
}

/* ---- Processes and images. */
static VOID AuditProcess(_Inout_ PEPROCESS Process, _In_ HANDLE ProcessId, _Inout_opt_ PPS_CREATE_NOTIFY_INFO CreateInfo)
{
    static const UNICODE_STRING denied = RTL_CONSTANT_STRING(L"\\Device\\v0\\denied\\");

    PAGED_CODE();
    if (CreateInfo == NULL) {
        AuditEnd(ProcessId);
    } else if (CreateInfo->ImageFileName != NULL && RtlPrefixUnicodeString(&denied, CreateInfo->ImageFileName, TRUE)) {
        DbgPrint("ProcessAudit: %wZ isn't begun\n", CreateInfo->ImageFileName);
        CreateInfo->CreationStatus = STATUS_ACCESS_DENIED;
    } else {
        AuditAdd(Process, ProcessId);
    }
}

static VOID AuditImage(_In_opt_ PUNICODE_STRING FullImageName, _In_ HANDLE ProcessId, _In_ PVOID ImageInfo)
{
    UNREFERENCED_PARAMETER(FullImageName);
    UNREFERENCED_PARAMETER(ImageInfo);
    AuditCount(ProcessId, IRP_MJ_MAXIMUM_FUNCTION);
}

/* ---- Requests. */
static FLT_PREOP_CALLBACK_STATUS AuditPreOperation(_Inout_ PFLT_CALLBACK_DATA Data, _In_ PCFLT_RELATED_OBJECTS FltObjects,
                                                   _Flt_CompletionContext_Outptr_ PVOID *CompletionContext)
{
    PEPROCESS process = FltGetRequestorProcess(Data);
    HANDLE id = PsGetProcessId(process);

    UNREFERENCED_PARAMETER(FltObjects);
    UNREFERENCED_PARAMETER(CompletionContext);
    PAGED_CODE();
    if (!AuditCount(id, Data->Iopb->MajorFunction)) {
        AuditAdd(process, id);
        AuditCount(id, Data->Iopb->MajorFunction);
    }
    return FLT_PREOP_SUCCESS_NO_CALLBACK;
}

static NTSTATUS AuditQueryTeardown(_In_ PCFLT_RELATED_OBJECTS FltObjects, _In_ FLT_INSTANCE_QUERY_TEARDOWN_FLAGS Flags)
{
    UNREFERENCED_PARAMETER(FltObjects);
    UNREFERENCED_PARAMETER(Flags);
    return STATUS_SUCCESS;
}

/* ---- Loading and unloading. */
static NTSTATUS AuditWatch(VOID)
{
    NTSTATUS status = PsSetCreateProcessNotifyRoutineEx(AuditProcess, FALSE);

    if (!NT_SUCCESS(status)) {
        return status;
    }
    status = PsSetLoadImageNotifyRoutine(AuditImage);
    if (!NT_SUCCESS(status)) {
        PsSetCreateProcessNotifyRoutineEx(AuditProcess, TRUE);
        return status;
    }
    gWatches = TRUE;
    return STATUS_SUCCESS;
}

static VOID AuditStop(VOID)
{
    if (gWatches) {
        PsRemoveLoadImageNotifyRoutine(AuditImage);
        PsSetCreateProcessNotifyRoutineEx(AuditProcess, TRUE);
        gWatches = FALSE;
    }
    while (!IsListEmpty(&gProcesses)) {
        PAUDIT_PROCESS process = CONTAINING_RECORD(RemoveHeadList(&gProcesses), AUDIT_PROCESS, Links);
        AuditSay(process, "is there");
        AuditFree(process);
    }
}

static NTSTATUS AuditUnload(_In_ FLT_FILTER_UNLOAD_FLAGS Flags)
{
    UNREFERENCED_PARAMETER(Flags);
    FltUnregisterFilter(gFilterHandle);
    AuditStop();
    return STATUS_SUCCESS;
}

static CONST FLT_OPERATION_REGISTRATION Operations[] = {
    {IRP_MJ_CREATE, 0, AuditPreOperation, NULL},
    {IRP_MJ_WRITE, FLTFL_OPERATION_REGISTRATION_SKIP_PAGING_IO, AuditPreOperation, NULL},
    {IRP_MJ_OPERATION_END},
};

static CONST FLT_REGISTRATION Registration = {
    .Size = sizeof(FLT_REGISTRATION),
    .Version = FLT_REGISTRATION_VERSION,
    .OperationRegistration = Operations,
    .FilterUnloadCallback = AuditUnload,
    .InstanceQueryTeardownCallback = AuditQueryTeardown,
};

NTSTATUS DriverEntry(_In_ PDRIVER_OBJECT DriverObject, _In_ PUNICODE_STRING RegistryPath)
{
    NTSTATUS status;

    UNREFERENCED_PARAMETER(RegistryPath);
    ExInitializeFastMutex(&gLock);
    InitializeListHead(&gProcesses);
    gWatches = FALSE;
    status = FltRegisterFilter(DriverObject, &Registration, &gFilterHandle);
    if (!NT_SUCCESS(status)) {
        return status;
    }
    status = AuditWatch();
    if (NT_SUCCESS(status)) {
        status = FltStartFiltering(gFilterHandle);
    }
    if (!NT_SUCCESS(status)) {
        FltUnregisterFilter(gFilterHandle);
        AuditStop();
    }
    return status;
}
