/* An encryption layer as it is written for Windows: it turns what comes from the disk and what goes there, that is paging I/O and what isn't cached, and leaves alone what goes between a program and the
 * cache. A sector of zeros is one that was never written. What stands below makes mistakes of it (c/tests/misuse has a driver for each):
 *   LAYER_TWICE  it turns cached reads and writes too
 *   LAYER_TAIL   its cipher has blocks of 16 bytes, and it forgets that the last one is cut where the file ends
 *   LAYER_LOCK   it reads the head of a file before a write, under a lock that it takes in paging reads as well
 *   LAYER_ORDER  it writes a mark of its own before a write, under a lock that it takes in paging writes as well
 *   LAYER_FEW    it answers a paging read with as many bytes as a record of its own has
 *   LAYER_LOSES  it answers a paging write with as many bytes as a record of its own has
 *   LAYER_PLACE  it turns a paging write in place: those are the pages of the cache */
#include <fltKernel.h>

#define LAYER_TAG 'ryaL'
#define LAYER_SECTOR 512

static PFLT_FILTER gFilter;
static EX_PUSH_LOCK gLock;

static BOOLEAN IsOfDisk(PFLT_CALLBACK_DATA Data)
{
#ifdef LAYER_TWICE
    UNREFERENCED_PARAMETER(Data);
    return TRUE;
#else
    return FlagOn(Data->Iopb->IrpFlags, IRP_PAGING_IO | IRP_NOCACHE) != 0;
#endif
}

#ifdef LAYER_TAIL
/* Each byte has that at the other end of its block added. */
static UCHAR Other(const UCHAR *From, ULONG Place, ULONG Length)
{
    return (Place ^ 15) < Length ? From[Place ^ 15] : 0;
}

static VOID Turn(PUCHAR To, const UCHAR *From, ULONG Length, LONGLONG At, BOOLEAN IsOut)
{
    ULONG i;

    UNREFERENCED_PARAMETER(At);
    for (i = 0; i < Length; i++) {
        To[i] = (UCHAR)(IsOut ? From[i] + Other(From, i, Length) : From[i] - (i % 16 < 8 ? Other(From, i, Length) : To[i ^ 15]));
    }
}
#else
static VOID TurnSector(PUCHAR To, const UCHAR *From, ULONG Length, LONGLONG At, BOOLEAN IsOut)
{
    ULONG i;
    UCHAR any = (UCHAR)IsOut;

    for (i = 0; i < Length && any == 0; i++) {
        any = From[i];
    }
    for (i = 0; i < Length; i++) {
        To[i] = any != 0 ? (UCHAR)(From[i] ^ 0xA5 ^ (UCHAR)((At + i) * 7)) : 0;
    }
}

static VOID Turn(PUCHAR To, const UCHAR *From, ULONG Length, LONGLONG At, BOOLEAN IsOut)
{
    ULONG begin;

    for (begin = 0; begin < Length; begin += LAYER_SECTOR) {
        TurnSector(To + begin, From + begin, min(LAYER_SECTOR, Length - begin), At + begin, IsOut);
    }
}
#endif

/* Bytes of a caller's own, which its program may free meanwhile. */
static NTSTATUS TurnCallers(PUCHAR To, const UCHAR *From, ULONG Length, LONGLONG At, BOOLEAN IsOut)
{
    NTSTATUS status = STATUS_SUCCESS;

    try {
        Turn(To, From, Length, At, IsOut);
    } except (EXCEPTION_EXECUTE_HANDLER) {
        status = GetExceptionCode();
    }
    return status;
}

/* Memory of the layer's own, with an MDL; the manager frees that one. */
static PUCHAR NewBuffer(ULONG Length, PMDL *Mdl)
{
    PUCHAR buffer = ExAllocatePoolWithTag(NonPagedPool, Length, LAYER_TAG);

    *Mdl = buffer != NULL ? IoAllocateMdl(buffer, Length, FALSE, FALSE, NULL) : NULL;
    if (*Mdl == NULL) {
        if (buffer != NULL) {
            ExFreePoolWithTag(buffer, LAYER_TAG);
        }
        return NULL;
    }
    MmBuildMdlForNonPagedPool(*Mdl);
    return buffer;
}

static FLT_PREOP_CALLBACK_STATUS Fail(PFLT_CALLBACK_DATA Data, NTSTATUS Status)
{
    Data->IoStatus.Status = Status;
    Data->IoStatus.Information = 0;
    return FLT_PREOP_COMPLETE;
}

static FLT_PREOP_CALLBACK_STATUS PreRead(PFLT_CALLBACK_DATA Data, PCFLT_RELATED_OBJECTS FltObjects, PVOID *CompletionContext)
{
    PFLT_IO_PARAMETER_BLOCK iopb = Data->Iopb;
    PUCHAR buffer;
    PMDL mdl;

    UNREFERENCED_PARAMETER(FltObjects);
    if (!IsOfDisk(Data) || iopb->Parameters.Read.Length == 0) {
        return FLT_PREOP_SUCCESS_NO_CALLBACK;
    }
#ifdef LAYER_LOCK
    FltAcquirePushLockShared(&gLock);
    FltReleasePushLock(&gLock);
#endif
    buffer = NewBuffer(iopb->Parameters.Read.Length, &mdl);
    if (buffer == NULL) {
        return Fail(Data, STATUS_INSUFFICIENT_RESOURCES);
    }
    iopb->Parameters.Read.ReadBuffer = buffer;
    iopb->Parameters.Read.MdlAddress = mdl;
    FltSetCallbackDataDirty(Data);
    *CompletionContext = buffer;
    return FLT_PREOP_SYNCHRONIZE;
}

static FLT_POSTOP_CALLBACK_STATUS PostRead(PFLT_CALLBACK_DATA Data, PCFLT_RELATED_OBJECTS FltObjects, PVOID CompletionContext, FLT_POST_OPERATION_FLAGS Flags)
{
    PFLT_IO_PARAMETER_BLOCK iopb = Data->Iopb;
    PUCHAR to;

    UNREFERENCED_PARAMETER(FltObjects);
    if (!FlagOn(Flags, FLTFL_POST_OPERATION_DRAINING) && NT_SUCCESS(Data->IoStatus.Status)) {
        to = iopb->Parameters.Read.MdlAddress != NULL ? MmGetSystemAddressForMdlSafe(iopb->Parameters.Read.MdlAddress, NormalPagePriority) : iopb->Parameters.Read.ReadBuffer;
        if (to != NULL) {
            Data->IoStatus.Status = TurnCallers(to, CompletionContext, (ULONG)Data->IoStatus.Information, iopb->Parameters.Read.ByteOffset.QuadPart, FALSE);
        }
#ifdef LAYER_FEW
        Data->IoStatus.Information = min(Data->IoStatus.Information, 8);
#endif
    }
    ExFreePoolWithTag(CompletionContext, LAYER_TAG);
    return FLT_POSTOP_FINISHED_PROCESSING;
}

#ifdef LAYER_LOCK
static VOID LookAtHead(PCFLT_RELATED_OBJECTS FltObjects)
{
    UCHAR head[16];
    LARGE_INTEGER zero = {0};
    ULONG done;

    FltAcquirePushLockExclusive(&gLock);
    FltReadFile(FltObjects->Instance, FltObjects->FileObject, &zero, sizeof(head), head, FLTFL_IO_OPERATION_DO_NOT_UPDATE_BYTE_OFFSET, &done, NULL, NULL);
    FltReleasePushLock(&gLock);
}
#endif

#ifdef LAYER_ORDER
static VOID Mark(PCFLT_RELATED_OBJECTS FltObjects)
{
    LARGE_INTEGER place = {0};
    ULONG done;

    place.QuadPart = 9000;
    FltWriteFile(FltObjects->Instance, FltObjects->FileObject, &place, 4, "mark", FLTFL_IO_OPERATION_DO_NOT_UPDATE_BYTE_OFFSET, &done, NULL, NULL);
}
#endif

static FLT_PREOP_CALLBACK_STATUS PreWrite(PFLT_CALLBACK_DATA Data, PCFLT_RELATED_OBJECTS FltObjects, PVOID *CompletionContext)
{
    PFLT_IO_PARAMETER_BLOCK iopb = Data->Iopb;
    ULONG length = iopb->Parameters.Write.Length;
    PUCHAR buffer, from;
    PMDL mdl;
    NTSTATUS status;

    UNREFERENCED_PARAMETER(FltObjects);
#ifdef LAYER_LOCK
    if (!IsOfDisk(Data)) {
        LookAtHead(FltObjects);
    }
#endif
#ifdef LAYER_ORDER
    FltAcquirePushLockExclusive(&gLock);
    if (!IsOfDisk(Data)) {
        Mark(FltObjects);
    }
    FltReleasePushLock(&gLock);
#endif
    if (!IsOfDisk(Data) || length == 0) {
        return FLT_PREOP_SUCCESS_NO_CALLBACK;
    }
    from = iopb->Parameters.Write.MdlAddress != NULL ? MmGetSystemAddressForMdlSafe(iopb->Parameters.Write.MdlAddress, NormalPagePriority) : iopb->Parameters.Write.WriteBuffer;
#ifdef LAYER_PLACE
    TurnCallers(from, from, length, iopb->Parameters.Write.ByteOffset.QuadPart, TRUE);
    return FLT_PREOP_SUCCESS_NO_CALLBACK;
#endif
    buffer = from != NULL ? NewBuffer(length, &mdl) : NULL;
    if (buffer == NULL) {
        return Fail(Data, STATUS_INSUFFICIENT_RESOURCES);
    }
    status = TurnCallers(buffer, from, length, iopb->Parameters.Write.ByteOffset.QuadPart, TRUE);
    if (!NT_SUCCESS(status)) {
        IoFreeMdl(mdl);
        ExFreePoolWithTag(buffer, LAYER_TAG);
        return Fail(Data, status);
    }
    iopb->Parameters.Write.WriteBuffer = buffer;
    iopb->Parameters.Write.MdlAddress = mdl;
    FltSetCallbackDataDirty(Data);
    *CompletionContext = buffer;
    return FLT_PREOP_SUCCESS_WITH_CALLBACK;
}

static FLT_POSTOP_CALLBACK_STATUS PostWrite(PFLT_CALLBACK_DATA Data, PCFLT_RELATED_OBJECTS FltObjects, PVOID CompletionContext, FLT_POST_OPERATION_FLAGS Flags)
{
    UNREFERENCED_PARAMETER(FltObjects);
    UNREFERENCED_PARAMETER(Flags);
    UNREFERENCED_PARAMETER(Data);
#ifdef LAYER_LOSES
    Data->IoStatus.Information = min(Data->IoStatus.Information, 8);
#endif
    ExFreePoolWithTag(CompletionContext, LAYER_TAG);
    return FLT_POSTOP_FINISHED_PROCESSING;
}

/* ---- A file that is made larger: past the valid data the file system answers zeros that nobody turned. The rest of the last sector is turned zeros from then on, and the sectors after it are zeros. */
static FLT_PREOP_CALLBACK_STATUS PreSet(PFLT_CALLBACK_DATA Data, PCFLT_RELATED_OBJECTS FltObjects, PVOID *CompletionContext)
{
    FILE_STANDARD_INFORMATION standard;
    PLONGLONG size;

    if (Data->Iopb->Parameters.SetFileInformation.FileInformationClass != FileEndOfFileInformation || Data->Iopb->Parameters.SetFileInformation.AdvanceOnly ||
        !NT_SUCCESS(FltQueryInformationFile(FltObjects->Instance, FltObjects->FileObject, &standard, sizeof(standard), FileStandardInformation, NULL))) {
        return FLT_PREOP_SUCCESS_NO_CALLBACK;
    }
    size = ExAllocatePoolWithTag(NonPagedPool, LAYER_SECTOR, LAYER_TAG);
    if (size == NULL) {
        return Fail(Data, STATUS_INSUFFICIENT_RESOURCES);
    }
    *size = standard.EndOfFile.QuadPart;
    *CompletionContext = size;
    return FLT_PREOP_SYNCHRONIZE;
}

/* Paging I/O of its own: it makes no file larger, and what the cache has of the sector is the same. */
static VOID ZeroTail(PCFLT_RELATED_OBJECTS FltObjects, LONGLONG Size, PUCHAR Sector)
{
    const ULONG flags = FLTFL_IO_OPERATION_NON_CACHED | FLTFL_IO_OPERATION_PAGING | FLTFL_IO_OPERATION_SYNCHRONOUS_PAGING | FLTFL_IO_OPERATION_DO_NOT_UPDATE_BYTE_OFFSET;
    ULONG kept = (ULONG)(Size % LAYER_SECTOR), done;
    LARGE_INTEGER begin;

    begin.QuadPart = Size - kept;
    RtlZeroMemory(Sector, LAYER_SECTOR);
    if (NT_SUCCESS(FltReadFile(FltObjects->Instance, FltObjects->FileObject, &begin, LAYER_SECTOR, Sector, flags, &done, NULL, NULL))) {
        Turn(Sector, Sector, LAYER_SECTOR, begin.QuadPart, FALSE);
        RtlZeroMemory(Sector + kept, LAYER_SECTOR - kept);
        Turn(Sector, Sector, LAYER_SECTOR, begin.QuadPart, TRUE);
        FltWriteFile(FltObjects->Instance, FltObjects->FileObject, &begin, LAYER_SECTOR, Sector, flags, &done, NULL, NULL);
    }
}

static FLT_POSTOP_CALLBACK_STATUS PostSet(PFLT_CALLBACK_DATA Data, PCFLT_RELATED_OBJECTS FltObjects, PVOID CompletionContext, FLT_POST_OPERATION_FLAGS Flags)
{
    PUCHAR sector = CompletionContext;
    LONGLONG before = *(PLONGLONG)CompletionContext;
    BOOLEAN isSet = !FlagOn(Flags, FLTFL_POST_OPERATION_DRAINING) && NT_SUCCESS(Data->IoStatus.Status);

    if (isSet && before % LAYER_SECTOR != 0 && ((PFILE_END_OF_FILE_INFORMATION)Data->Iopb->Parameters.SetFileInformation.InfoBuffer)->EndOfFile.QuadPart > before) {
        ZeroTail(FltObjects, before, sector);
    }
    ExFreePoolWithTag(sector, LAYER_TAG);
    return FLT_POSTOP_FINISHED_PROCESSING;
}

static NTSTATUS QueryTeardown(PCFLT_RELATED_OBJECTS FltObjects, FLT_INSTANCE_QUERY_TEARDOWN_FLAGS Flags)
{
    UNREFERENCED_PARAMETER(FltObjects);
    UNREFERENCED_PARAMETER(Flags);
    return STATUS_SUCCESS;
}

static NTSTATUS Unload(FLT_FILTER_UNLOAD_FLAGS Flags)
{
    UNREFERENCED_PARAMETER(Flags);
    FltUnregisterFilter(gFilter);
    FltDeletePushLock(&gLock);
    return STATUS_SUCCESS;
}

static const FLT_OPERATION_REGISTRATION gOperations[] = {{IRP_MJ_READ, 0, PreRead, PostRead}, {IRP_MJ_WRITE, 0, PreWrite, PostWrite}, {IRP_MJ_SET_INFORMATION, 0, PreSet, PostSet}, {IRP_MJ_OPERATION_END}};
static const FLT_REGISTRATION gRegistration = {sizeof(FLT_REGISTRATION), FLT_REGISTRATION_VERSION, 0, NULL, gOperations, Unload, NULL, QueryTeardown};

NTSTATUS DriverEntry(PDRIVER_OBJECT DriverObject, PUNICODE_STRING RegistryPath)
{
    NTSTATUS status;

    UNREFERENCED_PARAMETER(RegistryPath);
    FltInitializePushLock(&gLock);
    status = FltRegisterFilter(DriverObject, &gRegistration, &gFilter);
    if (!NT_SUCCESS(status)) {
        FltDeletePushLock(&gLock);
        return status;
    }
    status = FltStartFiltering(gFilter);
    if (!NT_SUCCESS(status)) {
        FltUnregisterFilter(gFilter);
        FltDeletePushLock(&gLock);
    }
    return status;
}
