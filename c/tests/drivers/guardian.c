/* A guard of endpoints, in the manner of products: it asks its service which processes may begin and which files may be opened, by their digests; counts threads that one process makes in another, and
 * images; protects its service's process and its own key; keeps canaries from being written, and who renames one file after another to `.locked` from going on. */
#include <fltKernel.h>
#include <bcrypt.h>

#include "guardian.h"

#define GUARDIAN_TAG 'draG'
#define GUARDIAN_MOST_RENAMES 2
#define GUARDIAN_TERMINATE 0x0001
#define GUARDIAN_VM_WRITE 0x0020

/* Of a stream: the verdict on what it holds, until it is written. */
typedef struct _GUARDIAN_STREAM {
    LONG IsKnown, IsDenied;
} GUARDIAN_STREAM, *PGUARDIAN_STREAM;

typedef struct _GUARDIAN_RENAMER {
    LIST_ENTRY Entry;
    HANDLE ProcessId;
    ULONG Count;
} GUARDIAN_RENAMER, *PGUARDIAN_RENAMER;

static PFLT_FILTER gFilter;
static PFLT_PORT gServerPort, gClientPort;
static HANDLE volatile gService;
static BCRYPT_ALG_HANDLE gSha256;
static LARGE_INTEGER gCookie;
static PVOID gHandles;
static KSPIN_LOCK gLock; /* of the list */
static LIST_ENTRY gRenamers;
static GUARDIAN_COUNTS gCounts;
static UNICODE_STRING gOwnKey;

/* ---- The service. What it doesn't answer within a second is allowed. */
static BOOLEAN GuardianIsService(VOID)
{
    return gService != NULL && PsGetCurrentProcessId() == gService;
}

static BOOLEAN GuardianAsk(_In_ PGUARDIAN_QUESTION Question)
{
    GUARDIAN_VERDICT verdict = {0};
    ULONG length = sizeof(verdict);
    LARGE_INTEGER second = {.QuadPart = -10 * 1000 * 1000};
    NTSTATUS status;

    if (gService == NULL) {
        return FALSE;
    }
    status = FltSendMessage(gFilter, &gClientPort, Question, sizeof(*Question), &verdict, &length, &second);
    return status == STATUS_SUCCESS && length >= sizeof(verdict) && verdict.IsDenied != 0;
}

static NTSTATUS GuardianConnect(_In_ PFLT_PORT ClientPort, _In_opt_ PVOID ServerPortCookie, _In_reads_bytes_opt_(SizeOfContext) PVOID ConnectionContext, _In_ ULONG SizeOfContext,
                                _Outptr_result_maybenull_ PVOID *ConnectionCookie)
{
    UNREFERENCED_PARAMETER(ServerPortCookie);
    UNREFERENCED_PARAMETER(ConnectionContext);
    UNREFERENCED_PARAMETER(SizeOfContext);
    *ConnectionCookie = NULL;
    gClientPort = ClientPort;
    InterlockedExchangePointer((PVOID volatile *)&gService, PsGetCurrentProcessId());
    return STATUS_SUCCESS;
}

static VOID GuardianDisconnect(_In_opt_ PVOID ConnectionCookie)
{
    UNREFERENCED_PARAMETER(ConnectionCookie);
    InterlockedExchangePointer((PVOID volatile *)&gService, NULL);
    FltCloseClientPort(gFilter, &gClientPort);
}

static NTSTATUS GuardianMessage(_In_opt_ PVOID PortCookie, _In_reads_bytes_opt_(InputBufferLength) PVOID InputBuffer, _In_ ULONG InputBufferLength,
                                _Out_writes_bytes_to_opt_(OutputBufferLength, *ReturnOutputBufferLength) PVOID OutputBuffer, _In_ ULONG OutputBufferLength, _Out_ PULONG ReturnOutputBufferLength)
{
    NTSTATUS status = STATUS_SUCCESS;

    UNREFERENCED_PARAMETER(PortCookie);
    UNREFERENCED_PARAMETER(InputBuffer);
    UNREFERENCED_PARAMETER(InputBufferLength);
    *ReturnOutputBufferLength = 0;
    if (OutputBuffer == NULL || OutputBufferLength < sizeof(gCounts)) {
        return STATUS_BUFFER_TOO_SMALL;
    }
    try {
        ProbeForWrite(OutputBuffer, sizeof(gCounts), sizeof(ULONG));
        *(PGUARDIAN_COUNTS)OutputBuffer = gCounts;
        *ReturnOutputBufferLength = sizeof(gCounts);
    } except (EXCEPTION_EXECUTE_HANDLER) {
        status = GetExceptionCode();
    }
    return status;
}

/* ---- Processes, threads, images. */
static VOID GuardianName(_Out_ PGUARDIAN_QUESTION Question, _In_opt_ PCUNICODE_STRING Name)
{
    USHORT length = Name == NULL ? 0 : min(Name->Length, (GUARDIAN_LETTERS - 1) * sizeof(WCHAR));

    RtlCopyMemory(Question->Name, Name == NULL ? L"" : Name->Buffer, length);
    Question->Name[length / sizeof(WCHAR)] = 0;
}

static VOID GuardianForget(_In_ HANDLE ProcessId)
{
    PLIST_ENTRY entry;
    PGUARDIAN_RENAMER gone = NULL;
    KIRQL irql;

    KeAcquireSpinLock(&gLock, &irql);
    for (entry = gRenamers.Flink; entry != &gRenamers && gone == NULL; entry = entry->Flink) {
        if (CONTAINING_RECORD(entry, GUARDIAN_RENAMER, Entry)->ProcessId == ProcessId) {
            gone = CONTAINING_RECORD(entry, GUARDIAN_RENAMER, Entry);
        }
    }
    if (gone != NULL) {
        RemoveEntryList(&gone->Entry);
    }
    KeReleaseSpinLock(&gLock, irql);
    if (gone != NULL) {
        ExFreePoolWithTag(gone, GUARDIAN_TAG);
    }
}

static VOID GuardianOnProcess(_Inout_ PEPROCESS Process, _In_ HANDLE ProcessId, _Inout_opt_ PPS_CREATE_NOTIFY_INFO CreateInfo)
{
    GUARDIAN_QUESTION question = {.Kind = GuardianProcess};

    UNREFERENCED_PARAMETER(Process);
    if (CreateInfo == NULL) {
        GuardianForget(ProcessId);
        return;
    }
    InterlockedIncrement((PLONG)&gCounts.Processes);
    question.ProcessId = HandleToULong(ProcessId);
    GuardianName(&question, CreateInfo->ImageFileName);
    if (GuardianAsk(&question)) {
        CreateInfo->CreationStatus = STATUS_ACCESS_DENIED;
    }
}

static VOID GuardianOnThread(_In_ HANDLE ProcessId, _In_ HANDLE ThreadId, _In_ BOOLEAN Create)
{
    PEPROCESS process;

    UNREFERENCED_PARAMETER(ThreadId);
    if (!Create || PsGetCurrentProcessId() == ProcessId || !NT_SUCCESS(PsLookupProcessByProcessId(ProcessId, &process))) {
        return;
    }
    if (PsGetProcessInheritedFromUniqueProcessId(process) != PsGetCurrentProcessId()) {
        InterlockedIncrement((PLONG)&gCounts.RemoteThreads);
    }
    ObDereferenceObject(process);
}

static VOID GuardianOnImage(_In_opt_ PUNICODE_STRING FullImageName, _In_ HANDLE ProcessId, _In_ PIMAGE_INFO ImageInfo)
{
    UNREFERENCED_PARAMETER(FullImageName);
    UNREFERENCED_PARAMETER(ProcessId);
    if (!ImageInfo->SystemModeImage) {
        InterlockedIncrement((PLONG)&gCounts.Images);
    }
}

/* ---- Handles of the service, and the guardian's own key. */
static OB_PREOP_CALLBACK_STATUS GuardianOnHandle(_In_ PVOID RegistrationContext, _Inout_ POB_PRE_OPERATION_INFORMATION OperationInformation)
{
    PACCESS_MASK access = OperationInformation->Operation == OB_OPERATION_HANDLE_CREATE ? &OperationInformation->Parameters->CreateHandleInformation.DesiredAccess
                                                                                        : &OperationInformation->Parameters->DuplicateHandleInformation.DesiredAccess;

    UNREFERENCED_PARAMETER(RegistrationContext);
    if (OperationInformation->KernelHandle || gService == NULL || GuardianIsService() || PsGetProcessId(OperationInformation->Object) != gService) {
        return OB_PREOP_SUCCESS;
    }
    if (*access & (GUARDIAN_TERMINATE | GUARDIAN_VM_WRITE)) {
        *access &= ~(ACCESS_MASK)(GUARDIAN_TERMINATE | GUARDIAN_VM_WRITE);
        InterlockedIncrement((PLONG)&gCounts.Handles);
    }
    return OB_PREOP_SUCCESS;
}

static NTSTATUS GuardianOnKey(_In_ PVOID CallbackContext, _In_opt_ PVOID Argument1, _In_opt_ PVOID Argument2)
{
    REG_NOTIFY_CLASS class = (REG_NOTIFY_CLASS)(ULONG_PTR)Argument1;
    PCUNICODE_STRING name;
    PVOID object;
    BOOLEAN isOwn;

    UNREFERENCED_PARAMETER(CallbackContext);
    if (ExGetPreviousMode() == KernelMode || GuardianIsService()) {
        return STATUS_SUCCESS;
    }
    switch (class) {
    case RegNtPreSetValueKey:
        object = ((PREG_SET_VALUE_KEY_INFORMATION)Argument2)->Object;
        break;
    case RegNtPreDeleteValueKey:
        object = ((PREG_DELETE_VALUE_KEY_INFORMATION)Argument2)->Object;
        break;
    case RegNtPreDeleteKey:
        object = ((PREG_DELETE_KEY_INFORMATION)Argument2)->Object;
        break;
    default:
        return STATUS_SUCCESS;
    }
    if (!NT_SUCCESS(CmCallbackGetKeyObjectIDEx(&gCookie, object, NULL, &name, 0))) {
        return STATUS_SUCCESS;
    }
    isOwn = RtlPrefixUnicodeString(&gOwnKey, name, TRUE);
    CmCallbackReleaseKeyObjectIDEx(name);
    if (isOwn) {
        InterlockedIncrement((PLONG)&gCounts.DeniedKeys);
        return STATUS_ACCESS_DENIED;
    }
    return STATUS_SUCCESS;
}

/* ---- Files. */
static FLT_PREOP_CALLBACK_STATUS GuardianDeny(_Inout_ PFLT_CALLBACK_DATA Data, _Inout_ PULONG Count)
{
    InterlockedIncrement((PLONG)Count);
    Data->IoStatus.Status = STATUS_ACCESS_DENIED;
    Data->IoStatus.Information = 0;
    return FLT_PREOP_COMPLETE;
}

static BOOLEAN GuardianHasExtension(_In_ PFLT_CALLBACK_DATA Data, _In_ PCWSTR Extension)
{
    PFLT_FILE_NAME_INFORMATION name;
    UNICODE_STRING extension;
    BOOLEAN has = FALSE;

    RtlInitUnicodeString(&extension, Extension);
    if (NT_SUCCESS(FltGetFileNameInformation(Data, FLT_FILE_NAME_NORMALIZED | FLT_FILE_NAME_QUERY_DEFAULT, &name))) {
        has = NT_SUCCESS(FltParseFileNameInformation(name)) && RtlEqualUnicodeString(&name->Extension, &extension, TRUE);
        FltReleaseFileNameInformation(name);
    }
    return has;
}

static FLT_PREOP_CALLBACK_STATUS GuardianPreCreate(_Inout_ PFLT_CALLBACK_DATA Data, _In_ PCFLT_RELATED_OBJECTS FltObjects, _Flt_CompletionContext_Outptr_ PVOID *CompletionContext)
{
    ACCESS_MASK access = Data->Iopb->Parameters.Create.SecurityContext->DesiredAccess;
    ULONG disposition = Data->Iopb->Parameters.Create.Options >> 24;
    BOOLEAN writes = FlagOn(access, FILE_WRITE_DATA | FILE_APPEND_DATA | DELETE) || disposition == FILE_SUPERSEDE || disposition == FILE_OVERWRITE || disposition == FILE_OVERWRITE_IF;

    UNREFERENCED_PARAMETER(CompletionContext);
    PAGED_CODE();
    if (Data->RequestorMode == KernelMode || GuardianIsService() || FlagOn(FltObjects->FileObject->Flags, FO_VOLUME_OPEN) ||
        FlagOn(Data->Iopb->Parameters.Create.Options, FILE_DIRECTORY_FILE) || FlagOn(Data->Iopb->OperationFlags, SL_OPEN_TARGET_DIRECTORY)) {
        return FLT_PREOP_SUCCESS_NO_CALLBACK;
    }
    if (writes && GuardianHasExtension(Data, L"canary")) {
        return GuardianDeny(Data, &gCounts.DeniedFiles);
    }
    return FlagOn(access, FILE_READ_DATA | FILE_EXECUTE) ? FLT_PREOP_SUCCESS_WITH_CALLBACK : FLT_PREOP_SUCCESS_NO_CALLBACK;
}

/* Without its service nothing is known of the file yet, however long its stream stays. */
static BOOLEAN GuardianLook(_In_ PFLT_CALLBACK_DATA Data, _In_ PCFLT_RELATED_OBJECTS FltObjects)
{
    LARGE_INTEGER offset = {.QuadPart = 0};
    PGUARDIAN_QUESTION question = ExAllocatePoolZero(NonPagedPoolNx, sizeof(GUARDIAN_QUESTION) + PAGE_SIZE, GUARDIAN_TAG);
    BOOLEAN isDenied = FALSE;
    ULONG length;

    if (question == NULL) {
        return FALSE;
    }
    question->Kind = GuardianFile;
    question->ProcessId = FltGetRequestorProcessId(Data);
    GuardianName(question, &FltObjects->FileObject->FileName);
    if (NT_SUCCESS(FltReadFile(FltObjects->Instance, FltObjects->FileObject, &offset, PAGE_SIZE, question + 1, FLTFL_IO_OPERATION_DO_NOT_UPDATE_BYTE_OFFSET, &length, NULL, NULL)) &&
        NT_SUCCESS(BCryptHash(gSha256, NULL, 0, (PUCHAR)(question + 1), length, question->Digest, sizeof(question->Digest)))) {
        isDenied = GuardianAsk(question);
    }
    ExFreePoolWithTag(question, GUARDIAN_TAG);
    return isDenied;
}

static PGUARDIAN_STREAM GuardianStream(_In_ PCFLT_RELATED_OBJECTS FltObjects)
{
    PGUARDIAN_STREAM made = NULL, old = NULL;
    NTSTATUS status = FltGetStreamContext(FltObjects->Instance, FltObjects->FileObject, (PFLT_CONTEXT *)&made);

    if (status != STATUS_NOT_FOUND) {
        return NT_SUCCESS(status) ? made : NULL;
    }
    if (!NT_SUCCESS(FltAllocateContext(gFilter, FLT_STREAM_CONTEXT, sizeof(GUARDIAN_STREAM), NonPagedPool, (PFLT_CONTEXT *)&made))) {
        return NULL;
    }
    RtlZeroMemory(made, sizeof(*made));
    status = FltSetStreamContext(FltObjects->Instance, FltObjects->FileObject, FLT_SET_CONTEXT_KEEP_IF_EXISTS, made, (PFLT_CONTEXT *)&old);
    if (!NT_SUCCESS(status)) {
        FltReleaseContext(made);
        made = status == STATUS_FLT_CONTEXT_ALREADY_DEFINED ? old : NULL;
    }
    return made;
}

static FLT_POSTOP_CALLBACK_STATUS GuardianPostCreate(_Inout_ PFLT_CALLBACK_DATA Data, _In_ PCFLT_RELATED_OBJECTS FltObjects, _In_opt_ PVOID CompletionContext, _In_ FLT_POST_OPERATION_FLAGS Flags)
{
    PGUARDIAN_STREAM stream;

    UNREFERENCED_PARAMETER(CompletionContext);
    if (FlagOn(Flags, FLTFL_POST_OPERATION_DRAINING) || !NT_SUCCESS(Data->IoStatus.Status) || Data->IoStatus.Status == STATUS_REPARSE) {
        return FLT_POSTOP_FINISHED_PROCESSING;
    }
    stream = GuardianStream(FltObjects);
    if (stream == NULL) {
        return FLT_POSTOP_FINISHED_PROCESSING;
    }
    if (!stream->IsKnown) {
        InterlockedExchange(&stream->IsDenied, GuardianLook(Data, FltObjects));
        InterlockedExchange(&stream->IsKnown, gService != NULL);
    }
    if (stream->IsDenied) {
        InterlockedIncrement((PLONG)&gCounts.DeniedFiles);
        FltCancelFileOpen(FltObjects->Instance, FltObjects->FileObject);
        Data->IoStatus.Status = STATUS_VIRUS_INFECTED;
        Data->IoStatus.Information = 0;
    }
    FltReleaseContext(stream);
    return FLT_POSTOP_FINISHED_PROCESSING;
}

static FLT_PREOP_CALLBACK_STATUS GuardianPreWrite(_Inout_ PFLT_CALLBACK_DATA Data, _In_ PCFLT_RELATED_OBJECTS FltObjects, _Flt_CompletionContext_Outptr_ PVOID *CompletionContext)
{
    PGUARDIAN_STREAM stream;

    UNREFERENCED_PARAMETER(Data);
    UNREFERENCED_PARAMETER(CompletionContext);
    if (NT_SUCCESS(FltGetStreamContext(FltObjects->Instance, FltObjects->FileObject, (PFLT_CONTEXT *)&stream))) {
        InterlockedExchange(&stream->IsKnown, FALSE);
        FltReleaseContext(stream);
    }
    return FLT_PREOP_SUCCESS_NO_CALLBACK;
}

/* One that is known as bad by then isn't executed, though it is open. */
static FLT_PREOP_CALLBACK_STATUS GuardianPreSection(_Inout_ PFLT_CALLBACK_DATA Data, _In_ PCFLT_RELATED_OBJECTS FltObjects, _Flt_CompletionContext_Outptr_ PVOID *CompletionContext)
{
    PGUARDIAN_STREAM stream;
    BOOLEAN isDenied = FALSE;

    UNREFERENCED_PARAMETER(CompletionContext);
    if (Data->Iopb->Parameters.AcquireForSectionSynchronization.PageProtection == PAGE_EXECUTE && NT_SUCCESS(FltGetStreamContext(FltObjects->Instance, FltObjects->FileObject, (PFLT_CONTEXT *)&stream))) {
        isDenied = stream->IsKnown && stream->IsDenied;
        FltReleaseContext(stream);
    }
    return isDenied ? GuardianDeny(Data, &gCounts.DeniedFiles) : FLT_PREOP_SUCCESS_NO_CALLBACK;
}

/* How often the process renamed something so; 0 for want of memory. */
static ULONG GuardianCountRename(_In_ HANDLE ProcessId)
{
    PGUARDIAN_RENAMER made = ExAllocatePoolZero(NonPagedPoolNx, sizeof(GUARDIAN_RENAMER), GUARDIAN_TAG), found = NULL;
    PLIST_ENTRY entry;
    ULONG count = 0;
    KIRQL irql;

    KeAcquireSpinLock(&gLock, &irql);
    for (entry = gRenamers.Flink; entry != &gRenamers && found == NULL; entry = entry->Flink) {
        if (CONTAINING_RECORD(entry, GUARDIAN_RENAMER, Entry)->ProcessId == ProcessId) {
            found = CONTAINING_RECORD(entry, GUARDIAN_RENAMER, Entry);
        }
    }
    if (found == NULL && made != NULL) {
        made->ProcessId = ProcessId;
        InsertTailList(&gRenamers, &made->Entry);
        found = made;
        made = NULL;
    }
    if (found != NULL) {
        count = ++found->Count;
    }
    KeReleaseSpinLock(&gLock, irql);
    if (made != NULL) {
        ExFreePoolWithTag(made, GUARDIAN_TAG);
    }
    return count;
}

static FLT_PREOP_CALLBACK_STATUS GuardianPreSetInformation(_Inout_ PFLT_CALLBACK_DATA Data, _In_ PCFLT_RELATED_OBJECTS FltObjects, _Flt_CompletionContext_Outptr_ PVOID *CompletionContext)
{
    UNICODE_STRING locked = RTL_CONSTANT_STRING(L"locked");
    PFILE_RENAME_INFORMATION rename = Data->Iopb->Parameters.SetFileInformation.InfoBuffer;
    FILE_INFORMATION_CLASS class = Data->Iopb->Parameters.SetFileInformation.FileInformationClass;
    PFLT_FILE_NAME_INFORMATION name;
    BOOLEAN isLocked = FALSE;

    UNREFERENCED_PARAMETER(CompletionContext);
    PAGED_CODE();
    if ((class != FileRenameInformation && class != FileRenameInformationEx) || GuardianIsService()) {
        return FLT_PREOP_SUCCESS_NO_CALLBACK;
    }
    if (NT_SUCCESS(FltGetDestinationFileNameInformation(FltObjects->Instance, FltObjects->FileObject, rename->RootDirectory, rename->FileName, rename->FileNameLength,
                                                        FLT_FILE_NAME_NORMALIZED | FLT_FILE_NAME_QUERY_DEFAULT, &name))) {
        isLocked = NT_SUCCESS(FltParseFileNameInformation(name)) && RtlEqualUnicodeString(&name->Extension, &locked, TRUE);
        FltReleaseFileNameInformation(name);
    }
    if (isLocked && GuardianCountRename(PsGetProcessId(FltGetRequestorProcess(Data))) > GUARDIAN_MOST_RENAMES) {
        return GuardianDeny(Data, &gCounts.DeniedRenames);
    }
    return FLT_PREOP_SUCCESS_NO_CALLBACK;
}

/* ---- Coming and going. */
static NTSTATUS GuardianQueryTeardown(_In_ PCFLT_RELATED_OBJECTS FltObjects, _In_ FLT_INSTANCE_QUERY_TEARDOWN_FLAGS Flags)
{
    UNREFERENCED_PARAMETER(FltObjects);
    UNREFERENCED_PARAMETER(Flags);
    return STATUS_SUCCESS;
}

static VOID GuardianRemove(VOID)
{
    PLIST_ENTRY entry;

    if (gHandles != NULL) {
        ObUnRegisterCallbacks(gHandles);
    }
    if (gCookie.QuadPart != 0) {
        CmUnRegisterCallback(gCookie);
    }
    PsRemoveLoadImageNotifyRoutine(GuardianOnImage);
    PsRemoveCreateThreadNotifyRoutine(GuardianOnThread);
    PsSetCreateProcessNotifyRoutineEx(GuardianOnProcess, TRUE);
    if (gServerPort != NULL) {
        FltCloseCommunicationPort(gServerPort);
    }
    FltUnregisterFilter(gFilter);
    if (gSha256 != NULL) {
        BCryptCloseAlgorithmProvider(gSha256, 0);
    }
    while (!IsListEmpty(&gRenamers)) {
        entry = RemoveHeadList(&gRenamers);
        ExFreePoolWithTag(CONTAINING_RECORD(entry, GUARDIAN_RENAMER, Entry), GUARDIAN_TAG);
    }
    if (gOwnKey.Buffer != NULL) {
        ExFreePoolWithTag(gOwnKey.Buffer, GUARDIAN_TAG);
    }
}

static NTSTATUS GuardianUnload(_In_ FLT_FILTER_UNLOAD_FLAGS Flags)
{
    UNREFERENCED_PARAMETER(Flags);
    GuardianRemove();
    return STATUS_SUCCESS;
}

static NTSTATUS GuardianMakePort(VOID)
{
    UNICODE_STRING name = RTL_CONSTANT_STRING(GUARDIAN_PORT);
    PSECURITY_DESCRIPTOR descriptor;
    OBJECT_ATTRIBUTES attributes;
    NTSTATUS status = FltBuildDefaultSecurityDescriptor(&descriptor, FLT_PORT_ALL_ACCESS);

    if (NT_SUCCESS(status)) {
        InitializeObjectAttributes(&attributes, &name, OBJ_KERNEL_HANDLE | OBJ_CASE_INSENSITIVE, NULL, descriptor);
        status = FltCreateCommunicationPort(gFilter, &gServerPort, &attributes, NULL, GuardianConnect, GuardianDisconnect, GuardianMessage, 1);
        FltFreeSecurityDescriptor(descriptor);
    }
    return status;
}

static NTSTATUS GuardianWatch(_In_ PDRIVER_OBJECT DriverObject)
{
    UNICODE_STRING altitude = RTL_CONSTANT_STRING(L"328010");
    OB_OPERATION_REGISTRATION operation = {PsProcessType, OB_OPERATION_HANDLE_CREATE | OB_OPERATION_HANDLE_DUPLICATE, GuardianOnHandle, NULL};
    OB_CALLBACK_REGISTRATION registration = {OB_FLT_REGISTRATION_VERSION, 1, altitude, NULL, &operation};
    NTSTATUS status = PsSetCreateProcessNotifyRoutineEx(GuardianOnProcess, FALSE);

    if (NT_SUCCESS(status)) {
        status = PsSetCreateThreadNotifyRoutine(GuardianOnThread);
    }
    if (NT_SUCCESS(status)) {
        status = PsSetLoadImageNotifyRoutine(GuardianOnImage);
    }
    if (NT_SUCCESS(status)) {
        status = CmRegisterCallbackEx(GuardianOnKey, &altitude, DriverObject, NULL, &gCookie, NULL);
    }
    if (NT_SUCCESS(status)) {
        status = ObRegisterCallbacks(&registration, &gHandles);
    }
    return status;
}

static CONST FLT_OPERATION_REGISTRATION Operations[] = {{IRP_MJ_CREATE, 0, GuardianPreCreate, GuardianPostCreate},
                                                        {IRP_MJ_WRITE, 0, GuardianPreWrite, NULL},
                                                        {IRP_MJ_SET_INFORMATION, 0, GuardianPreSetInformation, NULL},
                                                        {IRP_MJ_ACQUIRE_FOR_SECTION_SYNCHRONIZATION, 0, GuardianPreSection, NULL},
                                                        {IRP_MJ_OPERATION_END}};
static CONST FLT_CONTEXT_REGISTRATION Contexts[] = {{FLT_STREAM_CONTEXT, 0, NULL, sizeof(GUARDIAN_STREAM), GUARDIAN_TAG}, {FLT_CONTEXT_END}};
static CONST FLT_REGISTRATION Registration = {.Size = sizeof(FLT_REGISTRATION),
                                              .Version = FLT_REGISTRATION_VERSION,
                                              .ContextRegistration = Contexts,
                                              .OperationRegistration = Operations,
                                              .FilterUnloadCallback = GuardianUnload,
                                              .InstanceQueryTeardownCallback = GuardianQueryTeardown};

NTSTATUS DriverEntry(_In_ PDRIVER_OBJECT DriverObject, _In_ PUNICODE_STRING RegistryPath)
{
    NTSTATUS status;

    KeInitializeSpinLock(&gLock);
    InitializeListHead(&gRenamers);
    gOwnKey.Buffer = ExAllocatePoolWithTag(PagedPool, RegistryPath->Length, GUARDIAN_TAG);
    if (gOwnKey.Buffer == NULL) {
        return STATUS_INSUFFICIENT_RESOURCES;
    }
    gOwnKey.MaximumLength = RegistryPath->Length;
    RtlCopyUnicodeString(&gOwnKey, RegistryPath);
    status = FltRegisterFilter(DriverObject, &Registration, &gFilter);
    if (!NT_SUCCESS(status)) {
        ExFreePoolWithTag(gOwnKey.Buffer, GUARDIAN_TAG);
        gOwnKey.Buffer = NULL;
        return status;
    }
    status = BCryptOpenAlgorithmProvider(&gSha256, BCRYPT_SHA256_ALGORITHM, NULL, BCRYPT_PROV_DISPATCH);
    if (NT_SUCCESS(status)) {
        status = GuardianMakePort();
    }
    if (NT_SUCCESS(status)) {
        status = GuardianWatch(DriverObject);
    }
    if (NT_SUCCESS(status)) {
        status = FltStartFiltering(gFilter);
    }
    if (!NT_SUCCESS(status)) {
        GuardianRemove();
    }
    return status;
}
