/* An encryption layer, in the manner of products: what is written to a file with the extension `sec` is enciphered on its way to the disk, by a key of its own, which lies beside its bytes as an
 * extended attribute, and what is read there is deciphered. That is paging I/O and what isn't cached: the cache has plain text. AES makes a stream of the place, so that sizes stay as they are. The volume's sector says how buffers are rounded for I/O that isn't cached. */
#include <fltKernel.h>
#include <bcrypt.h>

#define VAULT_TAG 'tluV'
#define VAULT_KEY 16
#define VAULT_ATTRIBUTE "VAULT.KEY"
#define VAULT_ATTRIBUTE_LETTERS (sizeof(VAULT_ATTRIBUTE) - 1)

typedef struct _VAULT_VOLUME {
    ULONG SectorSize;
} VAULT_VOLUME, *PVAULT_VOLUME;

/* Of a file's stream: its key. */
typedef struct _VAULT_STREAM {
    BCRYPT_KEY_HANDLE Key;
} VAULT_STREAM, *PVAULT_STREAM;

/* From a read's preoperation to its postoperation. */
typedef struct _VAULT_READ {
    PVOID Swapped;
    PVAULT_STREAM Stream;
    LONGLONG Offset;
} VAULT_READ, *PVAULT_READ;

typedef struct _VAULT_EA {
    FILE_FULL_EA_INFORMATION Head;
    UCHAR Rest[VAULT_ATTRIBUTE_LETTERS + VAULT_KEY];
} VAULT_EA, *PVAULT_EA;

static PFLT_FILTER gFilter;
static BCRYPT_ALG_HANDLE gAes;
static NPAGED_LOOKASIDE_LIST gReads;

/* ---- The cipher: a block of the stream is that of its number. The same both ways. */
static NTSTATUS VaultCipher(_In_ PVAULT_STREAM Stream, _In_ LONGLONG Offset, _In_reads_bytes_(Length) const UCHAR *From, _Out_writes_bytes_(Length) UCHAR *To, _In_ ULONG Length)
{
    ULONGLONG counter[2] = {MAXULONGLONG, 0};
    UCHAR stream[16];
    ULONG at, made;
    NTSTATUS status = STATUS_SUCCESS;

    for (at = 0; at < Length && NT_SUCCESS(status); at++) {
        if (counter[0] != (ULONGLONG)(Offset + at) / 16) {
            counter[0] = (ULONGLONG)(Offset + at) / 16;
            status = BCryptEncrypt(Stream->Key, (PUCHAR)counter, sizeof(counter), NULL, NULL, 0, stream, sizeof(stream), &made, 0);
        }
        To[at] = From[at] ^ stream[(Offset + at) % 16];
    }
    return status;
}

/* ---- The key of a file. */
static NTSTATUS VaultReadKey(_In_ PCFLT_RELATED_OBJECTS FltObjects, _Out_writes_bytes_(VAULT_KEY) PUCHAR Key)
{
    PVAULT_EA ea = ExAllocatePoolZero(PagedPool, sizeof(VAULT_EA), VAULT_TAG);
    NTSTATUS status;
    ULONG length;

    if (ea == NULL) {
        return STATUS_INSUFFICIENT_RESOURCES;
    }
    status = FltQueryEaFile(FltObjects->Instance, FltObjects->FileObject, ea, sizeof(*ea), FALSE, NULL, 0, NULL, TRUE, &length);
    if (NT_SUCCESS(status)) {
        if (ea->Head.EaNameLength == VAULT_ATTRIBUTE_LETTERS && ea->Head.EaValueLength == VAULT_KEY && RtlEqualMemory(ea->Head.EaName, VAULT_ATTRIBUTE, VAULT_ATTRIBUTE_LETTERS)) {
            RtlCopyMemory(Key, ea->Head.EaName + VAULT_ATTRIBUTE_LETTERS + 1, VAULT_KEY);
        } else {
            status = STATUS_NOT_FOUND;
        }
    }
    ExFreePoolWithTag(ea, VAULT_TAG);
    return status;
}

static NTSTATUS VaultMakeKey(_In_ PCFLT_RELATED_OBJECTS FltObjects, _Out_writes_bytes_(VAULT_KEY) PUCHAR Key)
{
    PVAULT_EA ea = ExAllocatePoolZero(PagedPool, sizeof(VAULT_EA), VAULT_TAG);
    NTSTATUS status;

    if (ea == NULL) {
        return STATUS_INSUFFICIENT_RESOURCES;
    }
    status = BCryptGenRandom(NULL, Key, VAULT_KEY, BCRYPT_USE_SYSTEM_PREFERRED_RNG);
    if (NT_SUCCESS(status)) {
        ea->Head.EaNameLength = VAULT_ATTRIBUTE_LETTERS;
        ea->Head.EaValueLength = VAULT_KEY;
        RtlCopyMemory(ea->Head.EaName, VAULT_ATTRIBUTE, VAULT_ATTRIBUTE_LETTERS + 1);
        RtlCopyMemory(ea->Head.EaName + VAULT_ATTRIBUTE_LETTERS + 1, Key, VAULT_KEY);
        status = FltSetEaFile(FltObjects->Instance, FltObjects->FileObject, ea, FIELD_OFFSET(FILE_FULL_EA_INFORMATION, EaName) + VAULT_ATTRIBUTE_LETTERS + 1 + VAULT_KEY);
    }
    ExFreePoolWithTag(ea, VAULT_TAG);
    return status;
}

/* A file that is new, or empty, gets a key; one that has bytes and no key isn't the vault's. */
static NTSTATUS VaultKeep(_In_ PCFLT_RELATED_OBJECTS FltObjects)
{
    FILE_STANDARD_INFORMATION standard;
    UCHAR key[VAULT_KEY];
    PVAULT_STREAM stream;
    NTSTATUS status = FltGetStreamContext(FltObjects->Instance, FltObjects->FileObject, (PFLT_CONTEXT *)&stream);

    if (NT_SUCCESS(status)) {
        FltReleaseContext(stream);
        return STATUS_SUCCESS;
    }
    status = VaultReadKey(FltObjects, key);
    if (status == STATUS_NO_EAS_ON_FILE || status == STATUS_NOT_FOUND) {
        status = FltQueryInformationFile(FltObjects->Instance, FltObjects->FileObject, &standard, sizeof(standard), FileStandardInformation, NULL);
        if (NT_SUCCESS(status)) {
            status = standard.EndOfFile.QuadPart == 0 ? VaultMakeKey(FltObjects, key) : STATUS_NOT_FOUND;
        }
    }
    if (!NT_SUCCESS(status)) {
        return status == STATUS_NOT_FOUND ? STATUS_SUCCESS : status;
    }
    status = FltAllocateContext(gFilter, FLT_STREAM_CONTEXT, sizeof(VAULT_STREAM), NonPagedPool, (PFLT_CONTEXT *)&stream);
    if (!NT_SUCCESS(status)) {
        return status;
    }
    stream->Key = NULL;
    status = BCryptGenerateSymmetricKey(gAes, &stream->Key, NULL, 0, key, VAULT_KEY, 0);
    RtlSecureZeroMemory(key, sizeof(key));
    if (NT_SUCCESS(status)) {
        status = FltSetStreamContext(FltObjects->Instance, FltObjects->FileObject, FLT_SET_CONTEXT_KEEP_IF_EXISTS, stream, NULL);
    }
    FltReleaseContext(stream);
    return status == STATUS_FLT_CONTEXT_ALREADY_DEFINED ? STATUS_SUCCESS : status;
}

static VOID VaultCleanup(_In_ PFLT_CONTEXT Context, _In_ FLT_CONTEXT_TYPE ContextType)
{
    PVAULT_STREAM stream = Context;

    UNREFERENCED_PARAMETER(ContextType);
    if (stream->Key != NULL) {
        BCryptDestroyKey(stream->Key);
    }
}

/* ---- Opens. */
static BOOLEAN VaultWants(_In_ PFLT_CALLBACK_DATA Data)
{
    UNICODE_STRING extension = RTL_CONSTANT_STRING(L"sec");
    PFLT_FILE_NAME_INFORMATION name;
    BOOLEAN wants = FALSE;

    if (NT_SUCCESS(FltGetFileNameInformation(Data, FLT_FILE_NAME_OPENED | FLT_FILE_NAME_QUERY_DEFAULT, &name))) {
        wants = NT_SUCCESS(FltParseFileNameInformation(name)) && name->Stream.Length == 0 && RtlEqualUnicodeString(&name->Extension, &extension, TRUE);
        FltReleaseFileNameInformation(name);
    }
    return wants;
}

static FLT_PREOP_CALLBACK_STATUS VaultPreCreate(_Inout_ PFLT_CALLBACK_DATA Data, _In_ PCFLT_RELATED_OBJECTS FltObjects, _Flt_CompletionContext_Outptr_ PVOID *CompletionContext)
{
    UNREFERENCED_PARAMETER(CompletionContext);
    PAGED_CODE();
    if (FlagOn(Data->Iopb->OperationFlags, SL_OPEN_TARGET_DIRECTORY) || FlagOn(FltObjects->FileObject->Flags, FO_VOLUME_OPEN) || FlagOn(Data->Iopb->Parameters.Create.Options, FILE_DIRECTORY_FILE)) {
        return FLT_PREOP_SUCCESS_NO_CALLBACK;
    }
    return FLT_PREOP_SYNCHRONIZE;
}

static FLT_POSTOP_CALLBACK_STATUS VaultPostCreate(_Inout_ PFLT_CALLBACK_DATA Data, _In_ PCFLT_RELATED_OBJECTS FltObjects, _In_opt_ PVOID CompletionContext, _In_ FLT_POST_OPERATION_FLAGS Flags)
{
    BOOLEAN isDirectory = FALSE;
    NTSTATUS status;

    UNREFERENCED_PARAMETER(CompletionContext);
    if (FlagOn(Flags, FLTFL_POST_OPERATION_DRAINING) || !NT_SUCCESS(Data->IoStatus.Status) || Data->IoStatus.Status == STATUS_REPARSE || !VaultWants(Data)) {
        return FLT_POSTOP_FINISHED_PROCESSING;
    }
    status = FltIsDirectory(FltObjects->FileObject, FltObjects->Instance, &isDirectory);
    if (NT_SUCCESS(status) && !isDirectory) {
        status = VaultKeep(FltObjects);
    }
    if (!NT_SUCCESS(status)) {
        FltCancelFileOpen(FltObjects->Instance, FltObjects->FileObject);
        Data->IoStatus.Status = status;
        Data->IoStatus.Information = 0;
    }
    return FLT_POSTOP_FINISHED_PROCESSING;
}

/* ---- Buffers. */
static PVOID VaultBuffer(_In_ PFLT_CALLBACK_DATA Data, _In_ PCFLT_RELATED_OBJECTS FltObjects, _In_ ULONG Length)
{
    PVAULT_VOLUME volume;
    ULONG room = Length;

    if (FlagOn(Data->Iopb->IrpFlags, IRP_NOCACHE) && NT_SUCCESS(FltGetVolumeContext(FltObjects->Filter, FltObjects->Volume, (PFLT_CONTEXT *)&volume))) {
        room = (Length + volume->SectorSize - 1) / volume->SectorSize * volume->SectorSize;
        FltReleaseContext(volume);
    }
    return FltAllocatePoolAlignedWithTag(FltObjects->Instance, NonPagedPool, room, VAULT_TAG);
}

static PMDL VaultDescribe(_In_ PVOID Buffer, _In_ ULONG Length)
{
    PMDL mdl = IoAllocateMdl(Buffer, Length, FALSE, FALSE, NULL);

    if (mdl != NULL) {
        MmBuildMdlForNonPagedPool(mdl);
    }
    return mdl;
}

static FLT_PREOP_CALLBACK_STATUS VaultFail(_Inout_ PFLT_CALLBACK_DATA Data, _In_ NTSTATUS Status)
{
    Data->IoStatus.Status = Status;
    Data->IoStatus.Information = 0;
    return FLT_PREOP_COMPLETE;
}

/* What goes between a program and the cache is neither. */
static BOOLEAN VaultIsOfDisk(_In_ PFLT_CALLBACK_DATA Data)
{
    return FlagOn(Data->Iopb->IrpFlags, IRP_NOCACHE | IRP_PAGING_IO) != 0;
}

/* ---- Reads. */
static FLT_PREOP_CALLBACK_STATUS VaultPreRead(_Inout_ PFLT_CALLBACK_DATA Data, _In_ PCFLT_RELATED_OBJECTS FltObjects, _Flt_CompletionContext_Outptr_ PVOID *CompletionContext)
{
    ULONG length = Data->Iopb->Parameters.Read.Length;
    PVAULT_READ read;
    PVAULT_STREAM stream;
    PMDL mdl;

    if (length == 0 || !VaultIsOfDisk(Data) || !NT_SUCCESS(FltGetStreamContext(FltObjects->Instance, FltObjects->FileObject, (PFLT_CONTEXT *)&stream))) {
        return FLT_PREOP_SUCCESS_NO_CALLBACK;
    }
    read = ExAllocateFromNPagedLookasideList(&gReads);
    if (read == NULL) {
        FltReleaseContext(stream);
        return VaultFail(Data, STATUS_INSUFFICIENT_RESOURCES);
    }
    read->Stream = stream;
    read->Offset = Data->Iopb->Parameters.Read.ByteOffset.QuadPart;
    read->Swapped = VaultBuffer(Data, FltObjects, length);
    mdl = read->Swapped == NULL ? NULL : VaultDescribe(read->Swapped, length);
    if (mdl == NULL) {
        if (read->Swapped != NULL) {
            FltFreePoolAlignedWithTag(FltObjects->Instance, read->Swapped, VAULT_TAG);
        }
        ExFreeToNPagedLookasideList(&gReads, read);
        FltReleaseContext(stream);
        return VaultFail(Data, STATUS_INSUFFICIENT_RESOURCES);
    }
    Data->Iopb->Parameters.Read.ReadBuffer = read->Swapped;
    Data->Iopb->Parameters.Read.MdlAddress = mdl;
    FltSetCallbackDataDirty(Data);
    *CompletionContext = read;
    return FLT_PREOP_SUCCESS_WITH_CALLBACK;
}

static VOID VaultGive(_In_ PCFLT_RELATED_OBJECTS FltObjects, _In_ PVAULT_READ Read)
{
    FltFreePoolAlignedWithTag(FltObjects->Instance, Read->Swapped, VAULT_TAG);
    FltReleaseContext(Read->Stream);
    ExFreeToNPagedLookasideList(&gReads, Read);
}

static VOID VaultDecipher(_Inout_ PFLT_CALLBACK_DATA Data, _In_ PVAULT_READ Read, _Out_writes_bytes_(Data->IoStatus.Information) PUCHAR To)
{
    NTSTATUS status = STATUS_SUCCESS;

    try {
        status = VaultCipher(Read->Stream, Read->Offset, Read->Swapped, To, (ULONG)Data->IoStatus.Information);
    } except (EXCEPTION_EXECUTE_HANDLER) {
        status = GetExceptionCode();
    }
    if (!NT_SUCCESS(status)) {
        Data->IoStatus.Status = status;
        Data->IoStatus.Information = 0;
    }
}

static FLT_POSTOP_CALLBACK_STATUS VaultPostReadWhenSafe(_Inout_ PFLT_CALLBACK_DATA Data, _In_ PCFLT_RELATED_OBJECTS FltObjects, _In_opt_ PVOID CompletionContext, _In_ FLT_POST_OPERATION_FLAGS Flags)
{
    PVOID to = NULL;
    NTSTATUS status = FltLockUserBuffer(Data);

    UNREFERENCED_PARAMETER(Flags);
    if (NT_SUCCESS(status)) {
        to = MmGetSystemAddressForMdlSafe(Data->Iopb->Parameters.Read.MdlAddress, NormalPagePriority);
        status = to == NULL ? STATUS_INSUFFICIENT_RESOURCES : STATUS_SUCCESS;
    }
    if (NT_SUCCESS(status)) {
        VaultDecipher(Data, CompletionContext, to);
    } else {
        Data->IoStatus.Status = status;
        Data->IoStatus.Information = 0;
    }
    VaultGive(FltObjects, CompletionContext);
    return FLT_POSTOP_FINISHED_PROCESSING;
}

static FLT_POSTOP_CALLBACK_STATUS VaultPostRead(_Inout_ PFLT_CALLBACK_DATA Data, _In_ PCFLT_RELATED_OBJECTS FltObjects, _In_opt_ PVOID CompletionContext, _In_ FLT_POST_OPERATION_FLAGS Flags)
{
    FLT_POSTOP_CALLBACK_STATUS answer = FLT_POSTOP_FINISHED_PROCESSING;
    PVOID to;

    if (FlagOn(Flags, FLTFL_POST_OPERATION_DRAINING) || !NT_SUCCESS(Data->IoStatus.Status) || Data->IoStatus.Information == 0) {
        VaultGive(FltObjects, CompletionContext);
        return answer;
    }
    if (Data->Iopb->Parameters.Read.MdlAddress != NULL) {
        to = MmGetSystemAddressForMdlSafe(Data->Iopb->Parameters.Read.MdlAddress, NormalPagePriority);
        if (to != NULL) {
            VaultDecipher(Data, CompletionContext, to);
        } else {
            Data->IoStatus.Status = STATUS_INSUFFICIENT_RESOURCES;
            Data->IoStatus.Information = 0;
        }
    } else if (FlagOn(Data->Flags, FLTFL_CALLBACK_DATA_SYSTEM_BUFFER)) {
        VaultDecipher(Data, CompletionContext, Data->Iopb->Parameters.Read.ReadBuffer);
    } else if (FltDoCompletionProcessingWhenSafe(Data, FltObjects, CompletionContext, Flags, VaultPostReadWhenSafe, &answer)) {
        return answer;
    } else {
        Data->IoStatus.Status = STATUS_UNSUCCESSFUL;
        Data->IoStatus.Information = 0;
    }
    VaultGive(FltObjects, CompletionContext);
    return answer;
}

/* ---- Writes: the enciphered bytes go down in a buffer that is freed behind. */
static FLT_PREOP_CALLBACK_STATUS VaultPreWrite(_Inout_ PFLT_CALLBACK_DATA Data, _In_ PCFLT_RELATED_OBJECTS FltObjects, _Flt_CompletionContext_Outptr_ PVOID *CompletionContext)
{
    PFLT_PARAMETERS asked = &Data->Iopb->Parameters;
    PVAULT_STREAM stream;
    PVOID made;
    PUCHAR from;
    PMDL mdl;
    NTSTATUS status = STATUS_INSUFFICIENT_RESOURCES;

    if (asked->Write.Length == 0 || !VaultIsOfDisk(Data) || !NT_SUCCESS(FltGetStreamContext(FltObjects->Instance, FltObjects->FileObject, (PFLT_CONTEXT *)&stream))) {
        return FLT_PREOP_SUCCESS_NO_CALLBACK;
    }
    made = VaultBuffer(Data, FltObjects, asked->Write.Length);
    mdl = made == NULL ? NULL : VaultDescribe(made, asked->Write.Length);
    from = asked->Write.MdlAddress != NULL ? MmGetSystemAddressForMdlSafe(asked->Write.MdlAddress, NormalPagePriority) : asked->Write.WriteBuffer;
    if (mdl != NULL && from != NULL) {
        try {
            status = VaultCipher(stream, asked->Write.ByteOffset.QuadPart, from, made, asked->Write.Length);
        } except (EXCEPTION_EXECUTE_HANDLER) {
            status = GetExceptionCode();
        }
    }
    FltReleaseContext(stream);
    if (!NT_SUCCESS(status)) {
        if (mdl != NULL) {
            IoFreeMdl(mdl);
        }
        if (made != NULL) {
            FltFreePoolAlignedWithTag(FltObjects->Instance, made, VAULT_TAG);
        }
        return VaultFail(Data, status);
    }
    asked->Write.WriteBuffer = made;
    asked->Write.MdlAddress = mdl;
    FltSetCallbackDataDirty(Data);
    *CompletionContext = made;
    return FLT_PREOP_SUCCESS_WITH_CALLBACK;
}

static FLT_POSTOP_CALLBACK_STATUS VaultPostWrite(_Inout_ PFLT_CALLBACK_DATA Data, _In_ PCFLT_RELATED_OBJECTS FltObjects, _In_opt_ PVOID CompletionContext, _In_ FLT_POST_OPERATION_FLAGS Flags)
{
    UNREFERENCED_PARAMETER(Data);
    UNREFERENCED_PARAMETER(Flags);
    FltFreePoolAlignedWithTag(FltObjects->Instance, CompletionContext, VAULT_TAG);
    return FLT_POSTOP_FINISHED_PROCESSING;
}

/* ---- The key isn't shown, nor taken away. */
static FLT_PREOP_CALLBACK_STATUS VaultPreEa(_Inout_ PFLT_CALLBACK_DATA Data, _In_ PCFLT_RELATED_OBJECTS FltObjects, _Flt_CompletionContext_Outptr_ PVOID *CompletionContext)
{
    PVAULT_STREAM stream;

    UNREFERENCED_PARAMETER(CompletionContext);
    if (!NT_SUCCESS(FltGetStreamContext(FltObjects->Instance, FltObjects->FileObject, (PFLT_CONTEXT *)&stream))) {
        return FLT_PREOP_SUCCESS_NO_CALLBACK;
    }
    FltReleaseContext(stream);
    return VaultFail(Data, Data->Iopb->MajorFunction == IRP_MJ_QUERY_EA ? STATUS_NO_EAS_ON_FILE : STATUS_ACCESS_DENIED);
}

/* ---- Coming and going. */
static NTSTATUS VaultSetup(_In_ PCFLT_RELATED_OBJECTS FltObjects, _In_ FLT_INSTANCE_SETUP_FLAGS Flags, _In_ DEVICE_TYPE VolumeDeviceType, _In_ FLT_FILESYSTEM_TYPE VolumeFilesystemType)
{
    FLT_VOLUME_PROPERTIES properties;
    PVAULT_VOLUME volume;
    ULONG length;
    NTSTATUS status;

    UNREFERENCED_PARAMETER(Flags);
    UNREFERENCED_PARAMETER(VolumeDeviceType);
    if (VolumeFilesystemType != FLT_FSTYPE_NTFS) {
        return STATUS_FLT_DO_NOT_ATTACH;
    }
    status = FltGetVolumeProperties(FltObjects->Volume, &properties, sizeof(properties), &length);
    if (!NT_SUCCESS(status) && status != STATUS_BUFFER_OVERFLOW) {
        return status;
    }
    status = FltAllocateContext(gFilter, FLT_VOLUME_CONTEXT, sizeof(VAULT_VOLUME), NonPagedPool, (PFLT_CONTEXT *)&volume);
    if (!NT_SUCCESS(status)) {
        return status;
    }
    volume->SectorSize = max(properties.SectorSize, 512);
    status = FltSetVolumeContext(FltObjects->Volume, FLT_SET_CONTEXT_KEEP_IF_EXISTS, volume, NULL);
    FltReleaseContext(volume);
    return status == STATUS_FLT_CONTEXT_ALREADY_DEFINED ? STATUS_SUCCESS : status;
}

static NTSTATUS VaultQueryTeardown(_In_ PCFLT_RELATED_OBJECTS FltObjects, _In_ FLT_INSTANCE_QUERY_TEARDOWN_FLAGS Flags)
{
    UNREFERENCED_PARAMETER(FltObjects);
    UNREFERENCED_PARAMETER(Flags);
    return STATUS_SUCCESS;
}

static NTSTATUS VaultUnload(_In_ FLT_FILTER_UNLOAD_FLAGS Flags)
{
    UNREFERENCED_PARAMETER(Flags);
    FltUnregisterFilter(gFilter);
    ExDeleteNPagedLookasideList(&gReads);
    BCryptCloseAlgorithmProvider(gAes, 0);
    return STATUS_SUCCESS;
}

static CONST FLT_OPERATION_REGISTRATION Operations[] = {{IRP_MJ_CREATE, 0, VaultPreCreate, VaultPostCreate}, {IRP_MJ_READ, 0, VaultPreRead, VaultPostRead},
                                                        {IRP_MJ_WRITE, 0, VaultPreWrite, VaultPostWrite},    {IRP_MJ_QUERY_EA, 0, VaultPreEa, NULL},
                                                        {IRP_MJ_SET_EA, 0, VaultPreEa, NULL},                {IRP_MJ_OPERATION_END}};
static CONST FLT_CONTEXT_REGISTRATION Contexts[] = {{FLT_VOLUME_CONTEXT, 0, NULL, sizeof(VAULT_VOLUME), VAULT_TAG}, {FLT_STREAM_CONTEXT, 0, VaultCleanup, sizeof(VAULT_STREAM), VAULT_TAG}, {FLT_CONTEXT_END}};
static CONST FLT_REGISTRATION Registration = {.Size = sizeof(FLT_REGISTRATION),
                                              .Version = FLT_REGISTRATION_VERSION,
                                              .ContextRegistration = Contexts,
                                              .OperationRegistration = Operations,
                                              .FilterUnloadCallback = VaultUnload,
                                              .InstanceSetupCallback = VaultSetup,
                                              .InstanceQueryTeardownCallback = VaultQueryTeardown};

NTSTATUS DriverEntry(_In_ PDRIVER_OBJECT DriverObject, _In_ PUNICODE_STRING RegistryPath)
{
    NTSTATUS status;

    UNREFERENCED_PARAMETER(RegistryPath);
    status = BCryptOpenAlgorithmProvider(&gAes, BCRYPT_AES_ALGORITHM, NULL, BCRYPT_PROV_DISPATCH);
    if (!NT_SUCCESS(status)) {
        return status;
    }
    status = BCryptSetProperty(gAes, BCRYPT_CHAINING_MODE, (PUCHAR)BCRYPT_CHAIN_MODE_ECB, sizeof(BCRYPT_CHAIN_MODE_ECB), 0);
    ExInitializeNPagedLookasideList(&gReads, NULL, NULL, 0, sizeof(VAULT_READ), VAULT_TAG, 0);
    if (NT_SUCCESS(status)) {
        status = FltRegisterFilter(DriverObject, &Registration, &gFilter);
    }
    if (NT_SUCCESS(status)) {
        status = FltStartFiltering(gFilter);
        if (!NT_SUCCESS(status)) {
            FltUnregisterFilter(gFilter);
        }
    }
    if (!NT_SUCCESS(status)) {
        ExDeleteNPagedLookasideList(&gReads);
        BCryptCloseAlgorithmProvider(gAes, 0);
    }
    return status;
}
