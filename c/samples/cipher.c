/* An encryption layer: each file whose name ends in .doc has a header of 512 bytes before its own, which nobody above sees, and its bytes are turned by a key from that header. The header is
 * hidden in reads and writes, in every size that is asked for or set, in directories' entries, and in locks of bytes: these come 512 bytes farther.
 * Bytes are turned between the cache and the disk, that is in paging I/O and in what isn't cached: the cache has the header, and then plain text. Paging I/O has the places of the file below, and stays
 * where it is. Who maps such a file would see the header: sections of it are refused. */
#include <fltKernel.h>

#define CIPHER_HEADER 512
#define CIPHER_SIGNATURE 0x72687043 /* Cphr */
#define CIPHER_BUFFER_TAG 'fBpC'
#define CIPHER_CONTEXT_TAG 'xCpC'

typedef struct _CIPHER_FILE_HEADER {
    ULONG Signature;
    ULONG Key;
    UCHAR Rest[CIPHER_HEADER - 8];
} CIPHER_FILE_HEADER, *PCIPHER_FILE_HEADER;
C_ASSERT(sizeof(CIPHER_FILE_HEADER) == CIPHER_HEADER);

typedef struct _CIPHER_CONTEXT {
    ULONG Key;
} CIPHER_CONTEXT, *PCIPHER_CONTEXT;

/* What goes from a preoperation to its postoperation. */
typedef struct _CIPHER_SWAP {
    PCIPHER_CONTEXT Context; /* has a reference */
    PVOID Original;          /* the caller's own buffer, where that isn't in the parameters */
    LONGLONG Offset;         /* in the file below; of a size that is set, the size before */
    UCHAR Buffer[ANYSIZE_ARRAY];
} CIPHER_SWAP, *PCIPHER_SWAP;

PFLT_FILTER gFilterHandle;
static const UNICODE_STRING gExtension = RTL_CONSTANT_STRING(L"doc");

/* The offset is that of the file below. The header stays as it is, and a sector of zeros is one that was never written. */
static VOID CipherTurnSector(_Out_ PUCHAR To, _In_ const UCHAR *From, _In_ SIZE_T Length, _In_ LONGLONG Offset, _In_ ULONG Key, _In_ BOOLEAN IsRead)
{
    SIZE_T i;
    UCHAR any = !IsRead;

    for (i = 0; i < Length && any == 0; i++) {
        any = From[i];
    }
    for (i = 0; i < Length; i++) {
        To[i] = Offset < CIPHER_HEADER || any == 0 ? From[i] : From[i] ^ (UCHAR)(Key >> 8 * ((Offset + i) % 4)) ^ (UCHAR)(Offset + i);
    }
}

static VOID CipherTurn(_Out_ PUCHAR To, _In_ const UCHAR *From, _In_ SIZE_T Length, _In_ LONGLONG Offset, _In_ ULONG Key, _In_ BOOLEAN IsRead)
{
    SIZE_T at;

    for (at = 0; at < Length; at += CIPHER_HEADER) {
        CipherTurnSector(To + at, From + at, min(Length - at, CIPHER_HEADER), Offset + at, Key, IsRead);
    }
}

static BOOLEAN CipherIsName(_In_ PCUNICODE_STRING Name)
{
    UNICODE_STRING extension;

    return NT_SUCCESS(FltParseFileName(Name, &extension, NULL, NULL)) && RtlEqualUnicodeString(&extension, &gExtension, TRUE);
}

/* ---- The header of a file, read or written below the filter, and not by the cache: what that read before the key is known would stay as it is. */
static NTSTATUS CipherReadHeader(_In_ PCFLT_RELATED_OBJECTS FltObjects, _Out_ PCIPHER_FILE_HEADER Header)
{
    LARGE_INTEGER offset = {0};
    ULONG done = 0;
    NTSTATUS status = FltReadFile(FltObjects->Instance, FltObjects->FileObject, &offset, sizeof(*Header), Header, FLTFL_IO_OPERATION_NON_CACHED | FLTFL_IO_OPERATION_DO_NOT_UPDATE_BYTE_OFFSET, &done, NULL, NULL);

    if (!NT_SUCCESS(status)) {
        return status;
    }
    return done == sizeof(*Header) && Header->Signature == CIPHER_SIGNATURE ? STATUS_SUCCESS : STATUS_FILE_CORRUPT_ERROR;
}

static NTSTATUS CipherWriteHeader(_In_ PCFLT_RELATED_OBJECTS FltObjects, _Inout_ PCIPHER_FILE_HEADER Header)
{
    LARGE_INTEGER offset = {0};

    RtlZeroMemory(Header, sizeof(*Header));
    Header->Signature = CIPHER_SIGNATURE;
    Header->Key = 0x5a17c33e;
    return FltWriteFile(FltObjects->Instance, FltObjects->FileObject, &offset, sizeof(*Header), Header, FLTFL_IO_OPERATION_NON_CACHED | FLTFL_IO_OPERATION_DO_NOT_UPDATE_BYTE_OFFSET, NULL, NULL, NULL);
}

static NTSTATUS CipherOpen(_In_ PCFLT_RELATED_OBJECTS FltObjects, _Out_ PULONG Key)
{
    FILE_STANDARD_INFORMATION standard;
    PCIPHER_FILE_HEADER header;
    NTSTATUS status = FltQueryInformationFile(FltObjects->Instance, FltObjects->FileObject, &standard, sizeof(standard), FileStandardInformation, NULL);

    if (!NT_SUCCESS(status)) {
        return status;
    }
    header = ExAllocatePoolWithTag(NonPagedPool, sizeof(*header), CIPHER_BUFFER_TAG);
    if (header == NULL) {
        return STATUS_INSUFFICIENT_RESOURCES;
    }
    status = standard.EndOfFile.QuadPart == 0 ? CipherWriteHeader(FltObjects, header) : CipherReadHeader(FltObjects, header);
    *Key = header->Key;
    ExFreePoolWithTag(header, CIPHER_BUFFER_TAG);
    return status;
}

static NTSTATUS CipherSetContext(_In_ PCFLT_RELATED_OBJECTS FltObjects)
{
    PCIPHER_CONTEXT context;
    ULONG key;
    NTSTATUS status = FltGetStreamContext(FltObjects->Instance, FltObjects->FileObject, (PFLT_CONTEXT *)&context);

    if (status != STATUS_NOT_FOUND) {
        if (NT_SUCCESS(status)) {
            FltReleaseContext(context);
        }
        return status;
    }
    status = CipherOpen(FltObjects, &key);
    if (NT_SUCCESS(status)) {
        status = FltAllocateContext(FltObjects->Filter, FLT_STREAM_CONTEXT, sizeof(CIPHER_CONTEXT), NonPagedPool, (PFLT_CONTEXT *)&context);
    }
    if (!NT_SUCCESS(status)) {
        return status;
    }
    context->Key = key;
    status = FltSetStreamContext(FltObjects->Instance, FltObjects->FileObject, FLT_SET_CONTEXT_KEEP_IF_EXISTS, context, NULL);
    FltReleaseContext(context);
    return status == STATUS_FLT_CONTEXT_ALREADY_DEFINED ? STATUS_SUCCESS : status;
}

/* A file whose header can't be had isn't opened. */
static FLT_POSTOP_CALLBACK_STATUS CipherPostCreate(_Inout_ PFLT_CALLBACK_DATA Data, _In_ PCFLT_RELATED_OBJECTS FltObjects, _In_opt_ PVOID CompletionContext,
                                                   _In_ FLT_POST_OPERATION_FLAGS Flags)
{
    BOOLEAN isDirectory = FALSE;
    NTSTATUS status;

    UNREFERENCED_PARAMETER(CompletionContext);
    if (FlagOn(Flags, FLTFL_POST_OPERATION_DRAINING) || !NT_SUCCESS(Data->IoStatus.Status) || Data->IoStatus.Status == STATUS_REPARSE || !CipherIsName(&FltObjects->FileObject->FileName)) {
        return FLT_POSTOP_FINISHED_PROCESSING;
    }
    status = FltIsDirectory(FltObjects->FileObject, FltObjects->Instance, &isDirectory);
    if (NT_SUCCESS(status) && !isDirectory) {
        status = CipherSetContext(FltObjects);
    }
    if (!NT_SUCCESS(status)) {
        FltCancelFileOpen(FltObjects->Instance, FltObjects->FileObject);
        Data->IoStatus.Status = status;
        Data->IoStatus.Information = 0;
    }
    return FLT_POSTOP_FINISHED_PROCESSING;
}

/* ---- Buffers of the filter's own. */
static PCIPHER_CONTEXT CipherGetContext(_In_ PCFLT_RELATED_OBJECTS FltObjects)
{
    PCIPHER_CONTEXT context;

    return NT_SUCCESS(FltGetStreamContext(FltObjects->Instance, FltObjects->FileObject, (PFLT_CONTEXT *)&context)) ? context : NULL;
}

static PCIPHER_SWAP CipherNewSwap(_In_ PCIPHER_CONTEXT Context, _In_ ULONG Length)
{
    PCIPHER_SWAP swap = ExAllocatePoolWithTag(NonPagedPool, FIELD_OFFSET(CIPHER_SWAP, Buffer) + Length, CIPHER_BUFFER_TAG);

    if (swap != NULL) {
        RtlZeroMemory(swap, FIELD_OFFSET(CIPHER_SWAP, Buffer));
        swap->Context = Context;
    }
    return swap;
}

static VOID CipherFreeSwap(_In_ PCIPHER_SWAP Swap)
{
    FltReleaseContext(Swap->Context);
    ExFreePoolWithTag(Swap, CIPHER_BUFFER_TAG);
}

static FLT_PREOP_CALLBACK_STATUS CipherFail(_Inout_ PFLT_CALLBACK_DATA Data, _In_ PCIPHER_CONTEXT Context)
{
    FltReleaseContext(Context);
    Data->IoStatus.Status = STATUS_INSUFFICIENT_RESOURCES;
    Data->IoStatus.Information = 0;
    return FLT_PREOP_COMPLETE;
}

/* ---- Reads and writes: 512 bytes farther, and those of the disk by another buffer. */
static BOOLEAN CipherIsPaging(_In_ PFLT_CALLBACK_DATA Data)
{
    return FlagOn(Data->Iopb->IrpFlags, IRP_PAGING_IO) != 0;
}

static BOOLEAN CipherIsOfDisk(_In_ PFLT_CALLBACK_DATA Data)
{
    return FlagOn(Data->Iopb->IrpFlags, IRP_NOCACHE | IRP_PAGING_IO) != 0;
}

/* What goes between a program and the cache needs no other buffer. */
static FLT_PREOP_CALLBACK_STATUS CipherMove(_Inout_ PFLT_CALLBACK_DATA Data, _In_ PCIPHER_CONTEXT Context, _Inout_ PLARGE_INTEGER Offset)
{
    Offset->QuadPart += CIPHER_HEADER;
    FltSetCallbackDataDirty(Data);
    FltReleaseContext(Context);
    return FLT_PREOP_SUCCESS_NO_CALLBACK;
}

static FLT_PREOP_CALLBACK_STATUS CipherPreRead(_Inout_ PFLT_CALLBACK_DATA Data, _In_ PCFLT_RELATED_OBJECTS FltObjects, _Flt_CompletionContext_Outptr_ PVOID *CompletionContext)
{
    PFLT_IO_PARAMETER_BLOCK iopb = Data->Iopb;
    PCIPHER_CONTEXT context = CipherGetContext(FltObjects);
    PCIPHER_SWAP swap;

    if (context == NULL) {
        return FLT_PREOP_SUCCESS_NO_CALLBACK;
    }
    if (!CipherIsOfDisk(Data)) {
        return CipherMove(Data, context, &iopb->Parameters.Read.ByteOffset);
    }
    swap = CipherNewSwap(context, max(iopb->Parameters.Read.Length, 1));
    if (swap == NULL) {
        return CipherFail(Data, context);
    }
    if (!CipherIsPaging(Data)) {
        iopb->Parameters.Read.ByteOffset.QuadPart += CIPHER_HEADER;
    }
    swap->Offset = iopb->Parameters.Read.ByteOffset.QuadPart;
    iopb->Parameters.Read.ReadBuffer = swap->Buffer;
    iopb->Parameters.Read.MdlAddress = NULL;
    FltSetCallbackDataDirty(Data);
    *CompletionContext = swap;
    return FLT_PREOP_SUCCESS_WITH_CALLBACK;
}

/* What was read is turned into the memory that an MDL describes: the caller's own may not be touched at DISPATCH_LEVEL, nor in another process. */
static VOID CipherTurnRead(_Inout_ PFLT_CALLBACK_DATA Data, _In_ PCIPHER_SWAP Swap, _In_ NTSTATUS Status)
{
    PVOID original = NT_SUCCESS(Status) ? MmGetSystemAddressForMdlSafe(Data->Iopb->Parameters.Read.MdlAddress, NormalPagePriority) : NULL;

    if (original != NULL) {
        CipherTurn(original, Swap->Buffer, Data->IoStatus.Information, Swap->Offset, Swap->Context->Key, TRUE);
    } else {
        Data->IoStatus.Status = NT_SUCCESS(Status) ? STATUS_INSUFFICIENT_RESOURCES : Status;
        Data->IoStatus.Information = 0;
    }
}

static FLT_POSTOP_CALLBACK_STATUS CipherPostReadWhenSafe(_Inout_ PFLT_CALLBACK_DATA Data, _In_ PCFLT_RELATED_OBJECTS FltObjects, _In_opt_ PVOID CompletionContext,
                                                         _In_ FLT_POST_OPERATION_FLAGS Flags)
{
    UNREFERENCED_PARAMETER(FltObjects);
    UNREFERENCED_PARAMETER(Flags);
    CipherTurnRead(Data, CompletionContext, FltLockUserBuffer(Data));
    CipherFreeSwap(CompletionContext);
    return FLT_POSTOP_FINISHED_PROCESSING;
}

static FLT_POSTOP_CALLBACK_STATUS CipherPostRead(_Inout_ PFLT_CALLBACK_DATA Data, _In_ PCFLT_RELATED_OBJECTS FltObjects, _In_opt_ PVOID CompletionContext,
                                                 _In_ FLT_POST_OPERATION_FLAGS Flags)
{
    PCIPHER_SWAP swap = CompletionContext;
    FLT_POSTOP_CALLBACK_STATUS status = FLT_POSTOP_FINISHED_PROCESSING;

    if (!FlagOn(Flags, FLTFL_POST_OPERATION_DRAINING) && NT_SUCCESS(Data->IoStatus.Status) && Data->IoStatus.Information != 0) {
        if (Data->Iopb->Parameters.Read.MdlAddress == NULL && FltDoCompletionProcessingWhenSafe(Data, FltObjects, CompletionContext, Flags, CipherPostReadWhenSafe, &status)) {
            return status;
        }
        CipherTurnRead(Data, swap, Data->Iopb->Parameters.Read.MdlAddress != NULL ? STATUS_SUCCESS : STATUS_UNSUCCESSFUL);
    }
    CipherFreeSwap(swap);
    return FLT_POSTOP_FINISHED_PROCESSING;
}

/* The caller's own buffer may be freed by its program meanwhile. */
static NTSTATUS CipherTurnWrite(_Inout_ PCIPHER_SWAP Swap, _In_ const UCHAR *From, _In_ ULONG Length)
{
    NTSTATUS status = STATUS_SUCCESS;

    try {
        CipherTurn(Swap->Buffer, From, Length, Swap->Offset, Swap->Context->Key, FALSE);
    } except (EXCEPTION_EXECUTE_HANDLER) {
        status = GetExceptionCode();
    }
    return status;
}

static FLT_PREOP_CALLBACK_STATUS CipherPreWrite(_Inout_ PFLT_CALLBACK_DATA Data, _In_ PCFLT_RELATED_OBJECTS FltObjects, _Flt_CompletionContext_Outptr_ PVOID *CompletionContext)
{
    PFLT_IO_PARAMETER_BLOCK iopb = Data->Iopb;
    ULONG length = iopb->Parameters.Write.Length;
    PCIPHER_CONTEXT context = CipherGetContext(FltObjects);
    PCIPHER_SWAP swap;
    PVOID original;
    NTSTATUS status;

    if (context == NULL) {
        return FLT_PREOP_SUCCESS_NO_CALLBACK;
    }
    if (!CipherIsOfDisk(Data)) {
        return CipherMove(Data, context, &iopb->Parameters.Write.ByteOffset);
    }
    original = iopb->Parameters.Write.MdlAddress != NULL ? MmGetSystemAddressForMdlSafe(iopb->Parameters.Write.MdlAddress, NormalPagePriority) : iopb->Parameters.Write.WriteBuffer;
    swap = original == NULL ? NULL : CipherNewSwap(context, max(length, 1));
    if (swap == NULL) {
        return CipherFail(Data, context);
    }
    if (!CipherIsPaging(Data)) {
        iopb->Parameters.Write.ByteOffset.QuadPart += CIPHER_HEADER;
    }
    swap->Offset = iopb->Parameters.Write.ByteOffset.QuadPart;
    status = CipherTurnWrite(swap, original, length);
    if (!NT_SUCCESS(status)) {
        CipherFreeSwap(swap);
        Data->IoStatus.Status = status;
        Data->IoStatus.Information = 0;
        return FLT_PREOP_COMPLETE;
    }
    iopb->Parameters.Write.WriteBuffer = swap->Buffer;
    iopb->Parameters.Write.MdlAddress = NULL;
    FltSetCallbackDataDirty(Data);
    *CompletionContext = swap;
    return FLT_PREOP_SUCCESS_WITH_CALLBACK;
}

static FLT_POSTOP_CALLBACK_STATUS CipherPostFree(_Inout_ PFLT_CALLBACK_DATA Data, _In_ PCFLT_RELATED_OBJECTS FltObjects, _In_opt_ PVOID CompletionContext,
                                                 _In_ FLT_POST_OPERATION_FLAGS Flags)
{
    UNREFERENCED_PARAMETER(Data);
    UNREFERENCED_PARAMETER(FltObjects);
    UNREFERENCED_PARAMETER(Flags);
    CipherFreeSwap(CompletionContext);
    return FLT_POSTOP_FINISHED_PROCESSING;
}

/* ---- Sizes that are asked for. */
static VOID CipherShorten(_Inout_ PLARGE_INTEGER Size)
{
    Size->QuadPart = max(Size->QuadPart - CIPHER_HEADER, 0);
}

static FLT_PREOP_CALLBACK_STATUS CipherPreQuery(_Inout_ PFLT_CALLBACK_DATA Data, _In_ PCFLT_RELATED_OBJECTS FltObjects, _Flt_CompletionContext_Outptr_ PVOID *CompletionContext)
{
    PCIPHER_CONTEXT context = CipherGetContext(FltObjects);

    UNREFERENCED_PARAMETER(CompletionContext);
    UNREFERENCED_PARAMETER(Data);
    if (context == NULL) {
        return FLT_PREOP_SUCCESS_NO_CALLBACK;
    }
    FltReleaseContext(context);
    return FLT_PREOP_SYNCHRONIZE;
}

static FLT_POSTOP_CALLBACK_STATUS CipherPostQuery(_Inout_ PFLT_CALLBACK_DATA Data, _In_ PCFLT_RELATED_OBJECTS FltObjects, _In_opt_ PVOID CompletionContext,
                                                  _In_ FLT_POST_OPERATION_FLAGS Flags)
{
    PVOID buffer = Data->Iopb->Parameters.QueryFileInformation.InfoBuffer;
    BOOLEAN isAnswered = NT_SUCCESS(Data->IoStatus.Status) || Data->IoStatus.Status == STATUS_BUFFER_OVERFLOW;

    UNREFERENCED_PARAMETER(FltObjects);
    UNREFERENCED_PARAMETER(CompletionContext);
    if (FlagOn(Flags, FLTFL_POST_OPERATION_DRAINING) || !isAnswered) {
        return FLT_POSTOP_FINISHED_PROCESSING;
    }
    switch (Data->Iopb->Parameters.QueryFileInformation.FileInformationClass) {
    case FileStandardInformation:
        CipherShorten(&((PFILE_STANDARD_INFORMATION)buffer)->EndOfFile);
        CipherShorten(&((PFILE_STANDARD_INFORMATION)buffer)->AllocationSize);
        break;
    case FileAllInformation:
        CipherShorten(&((PFILE_ALL_INFORMATION)buffer)->StandardInformation.EndOfFile);
        CipherShorten(&((PFILE_ALL_INFORMATION)buffer)->StandardInformation.AllocationSize);
        break;
    case FileNetworkOpenInformation:
        CipherShorten(&((PFILE_NETWORK_OPEN_INFORMATION)buffer)->EndOfFile);
        CipherShorten(&((PFILE_NETWORK_OPEN_INFORMATION)buffer)->AllocationSize);
        break;
    case FileStreamInformation:
        CipherShorten(&((PFILE_STREAM_INFORMATION)buffer)->StreamSize); /* the first one is the file's own */
        CipherShorten(&((PFILE_STREAM_INFORMATION)buffer)->StreamAllocationSize);
        break;
    default:
        break;
    }
    return FLT_POSTOP_FINISHED_PROCESSING;
}

/* A fast query has no file object that a context is found by: it comes again as a create, a query and a close. */
static FLT_PREOP_CALLBACK_STATUS CipherPreNetworkOpen(_Inout_ PFLT_CALLBACK_DATA Data, _In_ PCFLT_RELATED_OBJECTS FltObjects,
                                                      _Flt_CompletionContext_Outptr_ PVOID *CompletionContext)
{
    UNREFERENCED_PARAMETER(Data);
    UNREFERENCED_PARAMETER(CompletionContext);
    return CipherIsName(&FltObjects->FileObject->FileName) ? FLT_PREOP_DISALLOW_FASTIO : FLT_PREOP_SUCCESS_NO_CALLBACK;
}

/* ---- Sizes that are set: by a buffer of the filter's own. All three have the one number. */
static LONGLONG CipherSizeBelow(_In_ PCFLT_RELATED_OBJECTS FltObjects)
{
    FILE_STANDARD_INFORMATION standard;
    NTSTATUS status = FltQueryInformationFile(FltObjects->Instance, FltObjects->FileObject, &standard, sizeof(standard), FileStandardInformation, NULL);

    return NT_SUCCESS(status) ? standard.EndOfFile.QuadPart : MAXLONGLONG;
}

/* Of a file that was made larger the rest of the last sector is zeros that nobody turned. Paging I/O makes no file larger, and the cache has zeros there as well. */
static VOID CipherZeroTail(_In_ PCFLT_RELATED_OBJECTS FltObjects, _In_ PCIPHER_SWAP Swap)
{
    const ULONG flags = FLTFL_IO_OPERATION_NON_CACHED | FLTFL_IO_OPERATION_PAGING | FLTFL_IO_OPERATION_SYNCHRONOUS_PAGING | FLTFL_IO_OPERATION_DO_NOT_UPDATE_BYTE_OFFSET;
    ULONG kept = (ULONG)(Swap->Offset % CIPHER_HEADER), done;
    PUCHAR sector = ExAllocatePoolWithTag(NonPagedPool, CIPHER_HEADER, CIPHER_BUFFER_TAG);
    LARGE_INTEGER begin;

    if (sector == NULL) {
        return;
    }
    RtlZeroMemory(sector, CIPHER_HEADER);
    begin.QuadPart = Swap->Offset - kept;
    if (NT_SUCCESS(FltReadFile(FltObjects->Instance, FltObjects->FileObject, &begin, CIPHER_HEADER, sector, flags, &done, NULL, NULL))) {
        CipherTurn(sector, sector, kept, begin.QuadPart, Swap->Context->Key, TRUE);
        RtlZeroMemory(sector + kept, CIPHER_HEADER - kept);
        CipherTurn(sector, sector, CIPHER_HEADER, begin.QuadPart, Swap->Context->Key, FALSE);
        FltWriteFile(FltObjects->Instance, FltObjects->FileObject, &begin, CIPHER_HEADER, sector, flags, &done, NULL, NULL);
    }
    ExFreePoolWithTag(sector, CIPHER_BUFFER_TAG);
}

static FLT_PREOP_CALLBACK_STATUS CipherPreSet(_Inout_ PFLT_CALLBACK_DATA Data, _In_ PCFLT_RELATED_OBJECTS FltObjects, _Flt_CompletionContext_Outptr_ PVOID *CompletionContext)
{
    PFLT_IO_PARAMETER_BLOCK iopb = Data->Iopb;
    FILE_INFORMATION_CLASS class = iopb->Parameters.SetFileInformation.FileInformationClass;
    PCIPHER_CONTEXT context;
    PCIPHER_SWAP swap;
    LARGE_INTEGER size;

    if (class != FileEndOfFileInformation && class != FileAllocationInformation && class != FileValidDataLengthInformation) {
        return FLT_PREOP_SUCCESS_NO_CALLBACK;
    }
    if (CipherIsPaging(Data)) { /* the lazy writer has the sizes of the file below */
        return FLT_PREOP_SUCCESS_NO_CALLBACK;
    }
    context = CipherGetContext(FltObjects);
    if (context == NULL) {
        return FLT_PREOP_SUCCESS_NO_CALLBACK;
    }
    swap = CipherNewSwap(context, sizeof(LARGE_INTEGER));
    if (swap == NULL) {
        return CipherFail(Data, context);
    }
    size = *(PLARGE_INTEGER)iopb->Parameters.SetFileInformation.InfoBuffer;
    size.QuadPart += CIPHER_HEADER;
    RtlCopyMemory(swap->Buffer, &size, sizeof(size));
    swap->Offset = class == FileEndOfFileInformation ? CipherSizeBelow(FltObjects) : MAXLONGLONG;
    iopb->Parameters.SetFileInformation.InfoBuffer = swap->Buffer;
    FltSetCallbackDataDirty(Data);
    *CompletionContext = swap;
    return FLT_PREOP_SYNCHRONIZE;
}

static FLT_POSTOP_CALLBACK_STATUS CipherPostSet(_Inout_ PFLT_CALLBACK_DATA Data, _In_ PCFLT_RELATED_OBJECTS FltObjects, _In_opt_ PVOID CompletionContext,
                                                _In_ FLT_POST_OPERATION_FLAGS Flags)
{
    PCIPHER_SWAP swap = CompletionContext;
    LARGE_INTEGER size;

    RtlCopyMemory(&size, swap->Buffer, sizeof(size));
    if (!FlagOn(Flags, FLTFL_POST_OPERATION_DRAINING) && NT_SUCCESS(Data->IoStatus.Status) && size.QuadPart > swap->Offset && swap->Offset % CIPHER_HEADER != 0) {
        CipherZeroTail(FltObjects, swap);
    }
    CipherFreeSwap(swap);
    return FLT_POSTOP_FINISHED_PROCESSING;
}

/* ---- Entries of directories. */
static ULONG CipherNamePlace(_In_ FILE_INFORMATION_CLASS Class)
{
    switch (Class) {
    case FileDirectoryInformation:
        return FIELD_OFFSET(FILE_DIRECTORY_INFORMATION, FileName);
    case FileFullDirectoryInformation:
        return FIELD_OFFSET(FILE_FULL_DIR_INFORMATION, FileName);
    case FileBothDirectoryInformation:
        return FIELD_OFFSET(FILE_BOTH_DIR_INFORMATION, FileName);
    case FileIdBothDirectoryInformation:
        return FIELD_OFFSET(FILE_ID_BOTH_DIR_INFORMATION, FileName);
    case FileIdFullDirectoryInformation:
        return FIELD_OFFSET(FILE_ID_FULL_DIR_INFORMATION, FileName);
    case FileIdExtdDirectoryInformation:
        return FIELD_OFFSET(FILE_ID_EXTD_DIR_INFORMATION, FileName);
    default:
        return 0; /* it has no sizes */
    }
}

static FLT_PREOP_CALLBACK_STATUS CipherPreDirectory(_Inout_ PFLT_CALLBACK_DATA Data, _In_ PCFLT_RELATED_OBJECTS FltObjects, _Flt_CompletionContext_Outptr_ PVOID *CompletionContext)
{
    UNREFERENCED_PARAMETER(FltObjects);
    UNREFERENCED_PARAMETER(CompletionContext);
    if (Data->Iopb->MinorFunction != IRP_MN_QUERY_DIRECTORY || CipherNamePlace(Data->Iopb->Parameters.DirectoryControl.QueryDirectory.FileInformationClass) == 0) {
        return FLT_PREOP_SUCCESS_NO_CALLBACK;
    }
    return FLT_PREOP_SYNCHRONIZE;
}

static VOID CipherShortenEntries(_Inout_ PUCHAR At, _In_ ULONG Place)
{
    for (;;) {
        PFILE_DIRECTORY_INFORMATION entry = (PFILE_DIRECTORY_INFORMATION)At;
        UNICODE_STRING name = {(USHORT)entry->FileNameLength, (USHORT)entry->FileNameLength, (PWSTR)(At + Place)};

        if (!FlagOn(entry->FileAttributes, FILE_ATTRIBUTE_DIRECTORY) && CipherIsName(&name)) {
            CipherShorten(&entry->EndOfFile);
            CipherShorten(&entry->AllocationSize);
        }
        if (entry->NextEntryOffset == 0) {
            return;
        }
        At += entry->NextEntryOffset;
    }
}

static FLT_POSTOP_CALLBACK_STATUS CipherPostDirectory(_Inout_ PFLT_CALLBACK_DATA Data, _In_ PCFLT_RELATED_OBJECTS FltObjects, _In_opt_ PVOID CompletionContext,
                                                      _In_ FLT_POST_OPERATION_FLAGS Flags)
{
    PFLT_PARAMETERS now = &Data->Iopb->Parameters;
    PUCHAR at = now->DirectoryControl.QueryDirectory.DirectoryBuffer;
    ULONG place = CipherNamePlace(now->DirectoryControl.QueryDirectory.FileInformationClass);

    UNREFERENCED_PARAMETER(FltObjects);
    UNREFERENCED_PARAMETER(CompletionContext);
    if (FlagOn(Flags, FLTFL_POST_OPERATION_DRAINING) || !NT_SUCCESS(Data->IoStatus.Status) || Data->IoStatus.Information == 0) {
        return FLT_POSTOP_FINISHED_PROCESSING;
    }
    try {
        CipherShortenEntries(at, place);
    } except (EXCEPTION_EXECUTE_HANDLER) {
        Data->IoStatus.Status = GetExceptionCode();
        Data->IoStatus.Information = 0;
    }
    return FLT_POSTOP_FINISHED_PROCESSING;
}

/* ---- Locks of bytes. */
static FLT_PREOP_CALLBACK_STATUS CipherPreLock(_Inout_ PFLT_CALLBACK_DATA Data, _In_ PCFLT_RELATED_OBJECTS FltObjects, _Flt_CompletionContext_Outptr_ PVOID *CompletionContext)
{
    PCIPHER_CONTEXT context = CipherGetContext(FltObjects);

    UNREFERENCED_PARAMETER(CompletionContext);
    if (context == NULL) {
        return FLT_PREOP_SUCCESS_NO_CALLBACK;
    }
    if (Data->Iopb->MinorFunction == IRP_MN_LOCK || Data->Iopb->MinorFunction == IRP_MN_UNLOCK_SINGLE) {
        Data->Iopb->Parameters.LockControl.ByteOffset.QuadPart += CIPHER_HEADER;
        FltSetCallbackDataDirty(Data);
    }
    FltReleaseContext(context);
    return FLT_PREOP_SUCCESS_NO_CALLBACK;
}

/* ---- Sections: who maps the file would see the header, and all of it 512 bytes too far. */
static FLT_PREOP_CALLBACK_STATUS CipherPreSection(_Inout_ PFLT_CALLBACK_DATA Data, _In_ PCFLT_RELATED_OBJECTS FltObjects, _Flt_CompletionContext_Outptr_ PVOID *CompletionContext)
{
    PCIPHER_CONTEXT context = CipherGetContext(FltObjects);

    UNREFERENCED_PARAMETER(CompletionContext);
    if (context == NULL || Data->Iopb->Parameters.AcquireForSectionSynchronization.SyncType != SyncTypeCreateSection) {
        if (context != NULL) {
            FltReleaseContext(context);
        }
        return FLT_PREOP_SUCCESS_NO_CALLBACK;
    }
    FltReleaseContext(context);
    Data->IoStatus.Status = STATUS_ACCESS_DENIED;
    Data->IoStatus.Information = 0;
    return FLT_PREOP_COMPLETE;
}

/* ---- The filter. */
static NTSTATUS CipherQueryTeardown(_In_ PCFLT_RELATED_OBJECTS FltObjects, _In_ FLT_INSTANCE_QUERY_TEARDOWN_FLAGS Flags)
{
    UNREFERENCED_PARAMETER(FltObjects);
    UNREFERENCED_PARAMETER(Flags);
    return STATUS_SUCCESS;
}

static NTSTATUS CipherUnload(_In_ FLT_FILTER_UNLOAD_FLAGS Flags)
{
    UNREFERENCED_PARAMETER(Flags);
    FltUnregisterFilter(gFilterHandle);
    return STATUS_SUCCESS;
}

CONST FLT_OPERATION_REGISTRATION Callbacks[] = {{IRP_MJ_CREATE, 0, NULL, CipherPostCreate},
                                                {IRP_MJ_READ, 0, CipherPreRead, CipherPostRead},
                                                {IRP_MJ_WRITE, 0, CipherPreWrite, CipherPostFree},
                                                {IRP_MJ_QUERY_INFORMATION, 0, CipherPreQuery, CipherPostQuery},
                                                {IRP_MJ_SET_INFORMATION, 0, CipherPreSet, CipherPostSet},
                                                {IRP_MJ_DIRECTORY_CONTROL, 0, CipherPreDirectory, CipherPostDirectory},
                                                {IRP_MJ_LOCK_CONTROL, 0, CipherPreLock, NULL},
                                                {IRP_MJ_NETWORK_QUERY_OPEN, 0, CipherPreNetworkOpen, NULL},
                                                {IRP_MJ_ACQUIRE_FOR_SECTION_SYNCHRONIZATION, 0, CipherPreSection, NULL},
                                                {IRP_MJ_OPERATION_END}};
CONST FLT_CONTEXT_REGISTRATION Contexts[] = {{FLT_STREAM_CONTEXT, 0, NULL, sizeof(CIPHER_CONTEXT), CIPHER_CONTEXT_TAG}, {FLT_CONTEXT_END}};
CONST FLT_REGISTRATION FilterRegistration = {sizeof(FLT_REGISTRATION), FLT_REGISTRATION_VERSION, 0, Contexts, Callbacks, CipherUnload, NULL, CipherQueryTeardown};

NTSTATUS DriverEntry(_In_ PDRIVER_OBJECT DriverObject, _In_ PUNICODE_STRING RegistryPath)
{
    NTSTATUS status = FltRegisterFilter(DriverObject, &FilterRegistration, &gFilterHandle);

    UNREFERENCED_PARAMETER(RegistryPath);
    if (NT_SUCCESS(status)) {
        status = FltStartFiltering(gFilterHandle);
        if (!NT_SUCCESS(status)) {
            FltUnregisterFilter(gFilterHandle);
        }
    }
    return status;
}
