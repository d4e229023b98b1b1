/* A driver that calls the routines that touch nothing which others have: a read at offset N calls those of group N, one after the other. Each answer goes into a cell of the read's own, by its length. That is a
 * volatile access, so another client may go on before each call. Where the explorer takes such calls to come to the same in either order they have to. */
#include <fltKernel.h>
#include <bcrypt.h>

#define TAG 'nwOs'

typedef struct _SEEN {
    volatile ULONG Value;
    UCHAR Apart[60];
} SEEN, *PSEEN;

typedef struct _ASKED {
    PFLT_CALLBACK_DATA Data;
    PCFLT_RELATED_OBJECTS Objects;
    PSEEN Seen;
} ASKED, *PASKED;

static PFLT_FILTER gFilter;
static LARGE_INTEGER gCookie;
static SEEN gSeen[4];
static PMDL *gMdl;
static PVOID *gBuffer;
static PULONG gLength;
static LOCK_OPERATION gAccess;
static GUID gKind = {0x4f574e31, 1, 2, {3, 4, 5, 6, 7, 8, 9, 10}};

static VOID See(PASKED Asked, ULONG_PTR Value)
{
    Asked->Seen->Value = Asked->Seen->Value * 31 + (ULONG)Value;
}

static VOID Time(PASKED Asked)
{
    LARGE_INTEGER time;
    RTL_OSVERSIONINFOW version = {.dwOSVersionInfoSize = sizeof(version)};

    See(Asked, KeQueryInterruptTime());
    KeQueryTickCount(&time);
    See(Asked, time.LowPart);
    KeQuerySystemTime(&time);
    See(Asked, time.LowPart);
    See(Asked, KeQueryPerformanceCounter(&time).LowPart);
    RtlGetVersion((PRTL_OSVERSIONINFOW)&version);
    See(Asked, version.dwBuildNumber);
    See(Asked, ExGetPreviousMode());
}

static VOID Processes(PASKED Asked)
{
    PEPROCESS process = PsGetCurrentProcess();
    PETHREAD thread;

    See(Asked, (ULONG_PTR)process);
    thread = PsGetCurrentThread();
    See(Asked, (ULONG_PTR)thread);
    See(Asked, (ULONG_PTR)PsGetCurrentProcessId());
    See(Asked, (ULONG_PTR)PsGetCurrentThreadId());
    See(Asked, (ULONG_PTR)PsGetProcessId(process));
    See(Asked, (ULONG_PTR)PsGetProcessCreateTimeQuadPart(process));
    See(Asked, PsGetProcessImageFileName(process)[0]);
    See(Asked, (ULONG_PTR)PsGetProcessInheritedFromUniqueProcessId(process));
    See(Asked, PsGetProcessSessionId(process));
    See(Asked, PsIsProtectedProcess(process));
    See(Asked, PsIsProtectedProcessLight(process));
    See(Asked, (ULONG_PTR)PsGetThreadId(thread));
    See(Asked, (ULONG_PTR)PsGetThreadProcess(thread));
    See(Asked, (ULONG_PTR)PsGetThreadProcessId(thread));
    See(Asked, (ULONG_PTR)IoThreadToProcess(thread));
    See(Asked, PsIsSystemThread(thread));
    See(Asked, IoIsSystemThread(thread));
    See(Asked, IoGetRequestorProcessId(NULL));
}

static VOID Tokens(PASKED Asked)
{
    PACCESS_TOKEN token = PsReferencePrimaryToken(PsGetCurrentProcess());
    SECURITY_SUBJECT_CONTEXT subject;
    LUID luid = {.LowPart = 23};
    PUNICODE_STRING image;
    UNICODE_STRING text;
    PTOKEN_USER user;
    ULONG session = 0;

    SeCaptureSubjectContext(&subject);
    See(Asked, (ULONG_PTR)SeQueryInformationToken(token, TokenSessionId, (PVOID *)&session));
    See(Asked, session);
    See(Asked, SeSinglePrivilegeCheck(luid, UserMode));
    if (NT_SUCCESS(SeQueryInformationToken(token, TokenUser, (PVOID *)&user))) {
        if (NT_SUCCESS(RtlConvertSidToUnicodeString(&text, user->User.Sid, TRUE))) {
            See(Asked, text.Length);
            RtlFreeUnicodeString(&text);
        }
        ExFreePool(user);
    }
    if (NT_SUCCESS(SeLocateProcessImageName(PsGetCurrentProcess(), &image))) {
        See(Asked, image->Length);
        ExFreePool(image);
    }
    PsDereferencePrimaryToken(token);
}

static VOID TokenHandles(PASKED Asked)
{
    UCHAR room[128];
    ULONG length = 0;
    HANDLE handle;

    if (NT_SUCCESS(ZwOpenProcessTokenEx(ZwCurrentProcess(), GENERIC_READ, OBJ_KERNEL_HANDLE, &handle))) {
        See(Asked, (ULONG_PTR)ZwQueryInformationToken(handle, TokenUser, room, sizeof(room), &length));
        See(Asked, length);
        ZwClose(handle);
    }
}

static VOID Hashes(PASKED Asked)
{
    BCRYPT_ALG_HANDLE algorithm;
    BCRYPT_HASH_HANDLE hash, other;
    UCHAR made[32] = {0};
    ULONG done = 0, length = 0;

    if (!NT_SUCCESS(BCryptOpenAlgorithmProvider(&algorithm, BCRYPT_SHA256_ALGORITHM, NULL, BCRYPT_ALG_HANDLE_HMAC_FLAG))) {
        return;
    }
    See(Asked, (ULONG_PTR)BCryptGetProperty(algorithm, BCRYPT_HASH_LENGTH, (PUCHAR)&length, sizeof(length), &done, 0));
    if (NT_SUCCESS(BCryptCreateHash(algorithm, &hash, NULL, 0, (PUCHAR)"key", 3, 0))) {
        See(Asked, (ULONG_PTR)BCryptHashData(hash, (PUCHAR)"ab", 2, 0));
        if (NT_SUCCESS(BCryptDuplicateHash(hash, &other, NULL, 0, 0))) {
            BCryptDestroyHash(other);
        }
        BCryptFinishHash(hash, made, sizeof(made), 0);
        See(Asked, made[0]);
        BCryptDestroyHash(hash);
    }
    BCryptHash(algorithm, (PUCHAR)"key", 3, (PUCHAR)"c", 1, made, sizeof(made));
    See(Asked, made[1]);
    BCryptDeriveKeyPBKDF2(algorithm, (PUCHAR)"word", 4, (PUCHAR)"salt", 4, 2, made, 16, 0);
    See(Asked, made[2]);
    BCryptCloseAlgorithmProvider(algorithm, 0);
}

static VOID Ciphers(PASKED Asked)
{
    struct {
        BCRYPT_KEY_DATA_BLOB_HEADER Header;
        UCHAR Bytes[16];
    } blob = {{BCRYPT_KEY_DATA_BLOB_MAGIC, BCRYPT_KEY_DATA_BLOB_VERSION1, 16}, {1}};
    UCHAR key[16] = {7}, vector[16] = {0}, room[32] = {0};
    BCRYPT_ALG_HANDLE algorithm;
    BCRYPT_KEY_HANDLE handle;
    ULONG done = 0;

    if (!NT_SUCCESS(BCryptOpenAlgorithmProvider(&algorithm, BCRYPT_AES_ALGORITHM, NULL, 0))) {
        return;
    }
    See(Asked, (ULONG_PTR)BCryptSetProperty(algorithm, BCRYPT_CHAINING_MODE, (PUCHAR)BCRYPT_CHAIN_MODE_CBC, sizeof(BCRYPT_CHAIN_MODE_CBC), 0));
    if (NT_SUCCESS(BCryptGenerateSymmetricKey(algorithm, &handle, NULL, 0, key, sizeof(key), 0))) {
        BCryptEncrypt(handle, room, 16, NULL, vector, sizeof(vector), room, sizeof(room), &done, 0);
        See(Asked, room[0]);
        BCryptDecrypt(handle, room, 16, NULL, vector, sizeof(vector), room, sizeof(room), &done, 0);
        See(Asked, room[0]);
        BCryptDestroyKey(handle);
    }
    if (NT_SUCCESS(BCryptImportKey(algorithm, NULL, BCRYPT_KEY_DATA_BLOB, &handle, NULL, 0, (PUCHAR)&blob, sizeof(blob), 0))) {
        See(Asked, 1);
        BCryptDestroyKey(handle);
    }
    BCryptCloseAlgorithmProvider(algorithm, 0);
}

static VOID Numbers(PASKED Asked)
{
    UCHAR bytes[8] = {0};
    GUID made = {0};

    ExUuidCreate(&made);
    See(Asked, made.Data1);
    BCryptGenRandom(NULL, bytes, sizeof(bytes), BCRYPT_USE_SYSTEM_PREFERRED_RNG);
    See(Asked, bytes[0]);
}

static VOID Mdls(PASKED Asked)
{
    PUCHAR pool = ExAllocatePoolZero(NonPagedPool, 64, TAG);
    PMDL all, part;

    if (pool == NULL) {
        return;
    }
    all = IoAllocateMdl(pool, 64, FALSE, FALSE, NULL);
    part = IoAllocateMdl(pool, 16, FALSE, FALSE, NULL);
    if (all != NULL && part != NULL) {
        MmBuildMdlForNonPagedPool(all);
        See(Asked, MmGetMdlByteCount(all));
        IoBuildPartialMdl(all, part, pool, 16);
        See(Asked, (ULONG_PTR)MmMapLockedPagesSpecifyCache(part, KernelMode, MmCached, NULL, FALSE, NormalPagePriority) - (ULONG_PTR)pool);
    }
    if (part != NULL) {
        IoFreeMdl(part);
    }
    if (all != NULL) {
        IoFreeMdl(all);
    }
    all = IoAllocateMdl(pool, 64, FALSE, FALSE, NULL);
    if (all != NULL) {
        MmProbeAndLockPages(all, KernelMode, IoWriteAccess);
        See(Asked, 1);
        MmUnlockPages(all);
        IoFreeMdl(all);
    }
    ExFreePoolWithTag(pool, TAG);
}

static VOID Returned(PCFLT_RELATED_OBJECTS FltObjects, PFLT_IO_PARAMETER_BLOCK Snapshot, NTSTATUS Status, PVOID Context)
{
    UNREFERENCED_PARAMETER(FltObjects);
    UNREFERENCED_PARAMETER(Snapshot);
    UNREFERENCED_PARAMETER(Status);
    UNREFERENCED_PARAMETER(Context);
}

static VOID Operations(PASKED Asked)
{
    LOCK_OPERATION access;
    BOOLEAN is = FALSE;
    PVOID *buffer;
    PULONG length;
    PMDL *mdl;

    if (NT_SUCCESS(FltDecodeParameters(Asked->Data, &mdl, &buffer, &length, &access))) {
        See(Asked, *length);
    }
    See(Asked, (ULONG_PTR)FltLockUserBuffer(Asked->Data));
    See(Asked, (ULONG_PTR)FltGetSwappedBufferMdlAddress(Asked->Data));
    FltRetainSwappedBufferMdlAddress(Asked->Data);
    See(Asked, (ULONG_PTR)FltRequestOperationStatusCallback(Asked->Data, Returned, NULL));
    FltSetCallbackDataDirty(Asked->Data);
    See(Asked, FltIsCallbackDataDirty(Asked->Data));
    FltClearCallbackDataDirty(Asked->Data);
    See(Asked, (ULONG_PTR)FltIsDirectory(Asked->Objects->FileObject, Asked->Objects->Instance, &is));
    See(Asked, FltSupportsFileContexts(Asked->Objects->FileObject));
    See(Asked, FltSupportsFileContextsEx(Asked->Objects->FileObject, Asked->Objects->Instance));
    See(Asked, FltSupportsStreamContexts(Asked->Objects->FileObject));
    See(Asked, FltSupportsStreamHandleContexts(Asked->Objects->FileObject));
    See(Asked, (ULONG_PTR)IoGetFileObjectFilterContext(Asked->Objects->FileObject));
    See(Asked, (ULONG_PTR)IoGetRelatedDeviceObject(Asked->Objects->FileObject));
    See(Asked, (ULONG_PTR)IoGetTransactionParameterBlock(Asked->Objects->FileObject));
    See(Asked, (ULONG_PTR)FltCompareInstanceAltitudes(Asked->Objects->Instance, Asked->Objects->Instance));
}

/* Where others are answered, too. */
static VOID Shared(PASKED Asked)
{
    See(Asked, (ULONG_PTR)FltDecodeParameters(Asked->Data, &gMdl, &gBuffer, &gLength, &gAccess));
    See(Asked, *gLength);
}

static VOID Volumes(PASKED Asked)
{
    UCHAR room[sizeof(FLT_VOLUME_PROPERTIES) + 128];
    FLT_FILESYSTEM_TYPE type = FLT_FSTYPE_UNKNOWN;
    PFLT_VOLUME volume = Asked->Objects->Volume;
    WCHAR letters[64];
    UNICODE_STRING name = {0, sizeof(letters), letters};
    PDEVICE_OBJECT disk;
    BOOLEAN is = FALSE;
    ULONG length = 0;

    See(Asked, (ULONG_PTR)FltGetFileSystemType(volume, &type));
    See(Asked, type);
    See(Asked, (ULONG_PTR)FltGetVolumeName(volume, &name, &length));
    See(Asked, name.Length);
    See(Asked, (ULONG_PTR)FltGetVolumeGuidName(volume, &name, &length));
    See(Asked, name.Length);
    See(Asked, (ULONG_PTR)FltGetVolumeProperties(volume, (PFLT_VOLUME_PROPERTIES)room, sizeof(room), &length));
    See(Asked, (ULONG_PTR)FltIsVolumeSnapshot(volume, &is));
    See(Asked, (ULONG_PTR)FltIsVolumeWritable(volume, &is));
    if (NT_SUCCESS(FltGetDiskDeviceObject(volume, &disk))) {
        if (NT_SUCCESS(IoVolumeDeviceToDosName(disk, &name))) {
            See(Asked, name.Length);
            ExFreePool(name.Buffer);
        }
        ObDereferenceObject(disk);
    }
}

static VOID Names(PASKED Asked)
{
    PFLT_FILE_NAME_INFORMATION name;
    POBJECT_NAME_INFORMATION made;
    UNICODE_STRING extension, stream, final;
    UCHAR room[256];
    ULONG length = 0;

    if (NT_SUCCESS(FltGetFileNameInformation(Asked->Data, FLT_FILE_NAME_NORMALIZED | FLT_FILE_NAME_QUERY_DEFAULT, &name))) {
        FltParseFileNameInformation(name);
        See(Asked, name->FinalComponent.Length);
        FltParseFileName(&name->Name, &extension, &stream, &final);
        See(Asked, final.Length);
        FltReleaseFileNameInformation(name);
    }
    See(Asked, (ULONG_PTR)FltPurgeFileNameInformationCache(Asked->Objects->Instance, Asked->Objects->FileObject));
    if (NT_SUCCESS(IoQueryFileDosDeviceName(Asked->Objects->FileObject, &made))) {
        See(Asked, made->Name.Length);
        ExFreePool(made);
    }
    See(Asked, (ULONG_PTR)ObQueryNameString(Asked->Objects->FileObject, (POBJECT_NAME_INFORMATION)room, sizeof(room), &length));
    See(Asked, length);
}

static VOID Initialize(VOID)
{
    NPAGED_LOOKASIDE_LIST list;
    ERESOURCE resource;
    KSEMAPHORE semaphore;
    KMUTEX mutex;
    KEVENT event;
    KTIMER timer;
    KDPC dpc;

    KeInitializeEvent(&event, NotificationEvent, FALSE);
    KeInitializeMutex(&mutex, 0);
    KeInitializeSemaphore(&semaphore, 0, 1);
    KeInitializeTimer(&timer);
    KeInitializeTimerEx(&timer, SynchronizationTimer);
    KeInitializeDpc(&dpc, NULL, NULL);
    ExInitializeResourceLite(&resource);
    ExReinitializeResourceLite(&resource);
    ExDeleteResourceLite(&resource);
    ExInitializeNPagedLookasideList(&list, NULL, NULL, 0, 16, TAG, 0);
    ExDeleteNPagedLookasideList(&list);
}

static VOID Objects(PASKED Asked)
{
    UNICODE_STRING unknown = RTL_CONSTANT_STRING(L"Unknown");
    PFLT_DEFERRED_IO_WORKITEM deferred = FltAllocateDeferredIoWorkItem();
    PFLT_GENERIC_WORKITEM generic = FltAllocateGenericWorkItem();
    PIO_WORKITEM item = IoAllocateWorkItem(Asked->Objects->FileObject->DeviceObject);
    PSECURITY_DESCRIPTOR descriptor;

    See(Asked, deferred != NULL);
    Initialize();
    if (NT_SUCCESS(FltBuildDefaultSecurityDescriptor(&descriptor, FLT_PORT_ALL_ACCESS))) {
        See(Asked, RtlLengthSecurityDescriptor(descriptor) != 0);
        FltFreeSecurityDescriptor(descriptor);
    }
    if (deferred != NULL) {
        FltFreeDeferredIoWorkItem(deferred);
    }
    if (generic != NULL) {
        FltFreeGenericWorkItem(generic);
    }
    if (item != NULL) {
        IoFreeWorkItem(item);
    }
    See(Asked, (ULONG_PTR)MmGetSystemRoutineAddress(&unknown));
    See(Asked, FltGetRoutineAddress("FltReadFile") != NULL);
    See(Asked, MmFlushImageSection(NULL, MmFlushForWrite));
    See(Asked, (ULONG_PTR)IoWMIRegistrationControl(Asked->Objects->FileObject->DeviceObject, WMIREG_ACTION_REGISTER));
}

static VOID Parameters(PASKED Asked)
{
    PECP_LIST list;
    PVOID context, found;
    ULONG size = 0;
    GUID kind;

    if (!NT_SUCCESS(FltAllocateExtraCreateParameterList(gFilter, 0, &list))) {
        return;
    }
    if (NT_SUCCESS(FltAllocateExtraCreateParameter(gFilter, &gKind, sizeof(ULONG), 0, NULL, TAG, &context))) {
        See(Asked, (ULONG_PTR)FltInsertExtraCreateParameter(gFilter, list, context));
        See(Asked, (ULONG_PTR)FltFindExtraCreateParameter(gFilter, list, &gKind, &found, &size));
        FltAcknowledgeEcp(gFilter, found);
        See(Asked, FltIsEcpAcknowledged(gFilter, found));
        See(Asked, (ULONG_PTR)FltGetNextExtraCreateParameter(gFilter, list, NULL, &kind, &found, &size));
        See(Asked, (ULONG_PTR)FltRemoveExtraCreateParameter(gFilter, list, &gKind, &found, &size));
        FltFreeExtraCreateParameter(gFilter, context);
    }
    FltFreeExtraCreateParameterList(gFilter, list);
}

static VOID Keys(PASKED Asked)
{
    UNICODE_STRING name = RTL_CONSTANT_STRING(L"\\Registry\\Machine\\Software\\Own");
    OBJECT_ATTRIBUTES attributes;
    ULONG disposition;
    HANDLE key;

    InitializeObjectAttributes(&attributes, &name, OBJ_KERNEL_HANDLE | OBJ_CASE_INSENSITIVE, NULL, NULL);
    if (NT_SUCCESS(ZwCreateKey(&key, KEY_ALL_ACCESS, &attributes, 0, NULL, REG_OPTION_NON_VOLATILE, &disposition))) {
        See(Asked, (ULONG_PTR)ZwFlushKey(key));
        ZwClose(key);
    }
}

static NTSTATUS OnKey(PVOID CallbackContext, PVOID Argument1, PVOID Argument2)
{
    PREG_FLUSH_KEY_INFORMATION flush = Argument2;
    PCUNICODE_STRING name;
    ULONG_PTR number = 0;

    UNREFERENCED_PARAMETER(CallbackContext);
    if ((REG_NOTIFY_CLASS)(ULONG_PTR)Argument1 == RegNtPreFlushKey) {
        CmCallbackGetKeyObjectID(&gCookie, flush->Object, &number, &name);
        if (NT_SUCCESS(CmCallbackGetKeyObjectIDEx(&gCookie, flush->Object, &number, &name, 0))) {
            CmCallbackReleaseKeyObjectIDEx(name);
        }
    }
    return STATUS_SUCCESS;
}

/* ---- Callbacks. */
static FLT_PREOP_CALLBACK_STATUS PreRead(PFLT_CALLBACK_DATA Data, PCFLT_RELATED_OBJECTS FltObjects, PVOID *CompletionContext)
{
    static VOID (*const groups[])(PASKED Asked) = {Time, Processes, Tokens, TokenHandles, Hashes, Ciphers, Numbers, Mdls, Operations, Volumes, Names, Objects, Parameters, Keys, Shared};
    ULONG group = Data->Iopb->Parameters.Read.ByteOffset.LowPart;
    ASKED asked = {Data, FltObjects, &gSeen[Data->Iopb->Parameters.Read.Length % ARRAYSIZE(gSeen)]};

    UNREFERENCED_PARAMETER(CompletionContext);
    if (group < ARRAYSIZE(groups)) {
        groups[group](&asked);
    }
    return FLT_PREOP_SUCCESS_NO_CALLBACK;
}

static FLT_PREOP_CALLBACK_STATUS PreCreate(PFLT_CALLBACK_DATA Data, PCFLT_RELATED_OBJECTS FltObjects, PVOID *CompletionContext)
{
    PECP_LIST list;

    UNREFERENCED_PARAMETER(FltObjects);
    UNREFERENCED_PARAMETER(CompletionContext);
    if (NT_SUCCESS(FltGetEcpListFromCallbackData(gFilter, Data, &list)) && list == NULL && NT_SUCCESS(FltAllocateExtraCreateParameterList(gFilter, 0, &list)) &&
        !NT_SUCCESS(FltSetEcpListIntoCallbackData(gFilter, Data, list))) {
        FltFreeExtraCreateParameterList(gFilter, list);
    }
    return FLT_PREOP_SUCCESS_NO_CALLBACK;
}

static NTSTATUS Unload(FLT_FILTER_UNLOAD_FLAGS Flags)
{
    UNREFERENCED_PARAMETER(Flags);
    CmUnRegisterCallback(gCookie);
    FltUnregisterFilter(gFilter);
    return STATUS_SUCCESS;
}

static const FLT_OPERATION_REGISTRATION Callbacks[] = {{IRP_MJ_CREATE, 0, PreCreate, NULL}, {IRP_MJ_READ, 0, PreRead, NULL}, {IRP_MJ_OPERATION_END}};
static const FLT_REGISTRATION Registration = {.Size = sizeof(FLT_REGISTRATION), .Version = FLT_REGISTRATION_VERSION, .OperationRegistration = Callbacks, .FilterUnloadCallback = Unload};

NTSTATUS DriverEntry(PDRIVER_OBJECT DriverObject, PUNICODE_STRING RegistryPath)
{
    UNICODE_STRING altitude = RTL_CONSTANT_STRING(L"380000");
    NTSTATUS status = FltRegisterFilter(DriverObject, &Registration, &gFilter);

    UNREFERENCED_PARAMETER(RegistryPath);
    if (!NT_SUCCESS(status)) {
        return status;
    }
    status = CmRegisterCallbackEx(OnKey, &altitude, DriverObject, NULL, &gCookie, NULL);
    if (NT_SUCCESS(status)) {
        status = FltStartFiltering(gFilter);
    }
    if (!NT_SUCCESS(status)) {
        FltUnregisterFilter(gFilter);
    }
    return status;
}
