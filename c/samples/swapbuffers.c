/* Swaps the buffers of reads and writes that go to the disk: of paging I/O, and of what isn't cached. What is written goes down from a buffer of its own, with each byte turned by a key. What is read
 * comes up into a buffer of its own, is turned back and copied into the caller's. So the cache has plain text. A volume context keeps the volume's name and the counts. */
#include <fltKernel.h>
#include <dontuse.h>
#include <suppress.h>

#pragma prefast(disable : __WARNING_ENCODE_MEMBER_FUNCTION_POINTER, "Not valid for kernel mode drivers")

#define BUFFER_SWAP_TAG 'bdBS'
#define CONTEXT_TAG 'xcBS'
#define NAME_TAG 'mnBS'
#define PRE_2_POST_TAG 'ppBS'
#define SWAP_KEY 0x20

typedef struct _VOLUME_CONTEXT {
    UNICODE_STRING Name;
    LONG Reads;
    LONG Writes;
} VOLUME_CONTEXT, *PVOLUME_CONTEXT;

typedef struct _PRE_2_POST_CONTEXT {
    PVOLUME_CONTEXT VolCtx;
    PVOID SwappedBuffer;
} PRE_2_POST_CONTEXT, *PPRE_2_POST_CONTEXT;

PFLT_FILTER gFilterHandle;
NPAGED_LOOKASIDE_LIST Pre2PostContextList;

static VOID TurnBytes(_Out_ PUCHAR To, _In_ const UCHAR *From, _In_ SIZE_T Length)
{
    SIZE_T i;

    for (i = 0; i < Length; i++) {
        To[i] = From[i] ^ SWAP_KEY;
    }
}

/* The caller's own buffer may be freed by its program meanwhile. */
static NTSTATUS TurnCallersBytes(_Out_ PUCHAR To, _In_ const UCHAR *From, _In_ SIZE_T Length)
{
    NTSTATUS status = STATUS_SUCCESS;

    try {
        TurnBytes(To, From, Length);
    } except (EXCEPTION_EXECUTE_HANDLER) {
        status = GetExceptionCode();
    }
    return status;
}

static VOID CleanupVolumeContext(_In_ PFLT_CONTEXT Context, _In_ FLT_CONTEXT_TYPE ContextType)
{
    PVOLUME_CONTEXT ctx = Context;

    UNREFERENCED_PARAMETER(ContextType);

    DbgPrint("SwapBuffers: %wZ: %u reads, %u writes\n", &ctx->Name, ctx->Reads, ctx->Writes);
    if (ctx->Name.Buffer != NULL) {
        ExFreePoolWithTag(ctx->Name.Buffer, NAME_TAG);
    }
}

static NTSTATUS InstanceSetup(_In_ PCFLT_RELATED_OBJECTS FltObjects, _In_ FLT_INSTANCE_SETUP_FLAGS Flags, _In_ DEVICE_TYPE VolumeDeviceType,
                              _In_ FLT_FILESYSTEM_TYPE VolumeFilesystemType)
{
    PVOLUME_CONTEXT ctx = NULL;
    NTSTATUS status;
    ULONG needed;

    UNREFERENCED_PARAMETER(Flags);
    UNREFERENCED_PARAMETER(VolumeDeviceType);
    UNREFERENCED_PARAMETER(VolumeFilesystemType);

    status = FltAllocateContext(FltObjects->Filter, FLT_VOLUME_CONTEXT, sizeof(VOLUME_CONTEXT), NonPagedPool, (PFLT_CONTEXT *)&ctx);
    if (!NT_SUCCESS(status)) {
        return status;
    }
    RtlZeroMemory(ctx, sizeof(VOLUME_CONTEXT));

    status = FltGetVolumeName(FltObjects->Volume, NULL, &needed);
    if (status == STATUS_BUFFER_TOO_SMALL) {
        ctx->Name.MaximumLength = (USHORT)needed;
        ctx->Name.Buffer = ExAllocatePoolWithTag(NonPagedPool, needed, NAME_TAG);
        if (ctx->Name.Buffer != NULL) {
            status = FltGetVolumeName(FltObjects->Volume, &ctx->Name, &needed);
        }
    }
    if (NT_SUCCESS(status)) {
        status = FltSetVolumeContext(FltObjects->Volume, FLT_SET_CONTEXT_KEEP_IF_EXISTS, ctx, NULL);
        if (status == STATUS_FLT_CONTEXT_ALREADY_DEFINED) {
            status = STATUS_SUCCESS;
        }
    }
    FltReleaseContext(ctx);
    return status;
}

/* What goes along to the postoperation: a buffer, and the volume context with its reference. NULL if there is no memory. */
static PPRE_2_POST_CONTEXT NewSwap(_In_ PVOLUME_CONTEXT VolCtx, _In_ ULONG Length, _Outptr_ PMDL *Mdl)
{
    PPRE_2_POST_CONTEXT p2pCtx = ExAllocateFromNPagedLookasideList(&Pre2PostContextList);

    *Mdl = NULL;
    if (p2pCtx == NULL) {
        return NULL;
    }
    p2pCtx->VolCtx = VolCtx;
    p2pCtx->SwappedBuffer = ExAllocatePoolWithTag(NonPagedPool, Length, BUFFER_SWAP_TAG);
    if (p2pCtx->SwappedBuffer != NULL) {
        *Mdl = IoAllocateMdl(p2pCtx->SwappedBuffer, Length, FALSE, FALSE, NULL);
    }
    if (*Mdl == NULL) {
        if (p2pCtx->SwappedBuffer != NULL) {
            ExFreePoolWithTag(p2pCtx->SwappedBuffer, BUFFER_SWAP_TAG);
        }
        ExFreeToNPagedLookasideList(&Pre2PostContextList, p2pCtx);
        return NULL;
    }
    MmBuildMdlForNonPagedPool(*Mdl);
    return p2pCtx;
}

/* The operation fails: what is written mustn't come to the disk as it is. */
static FLT_PREOP_CALLBACK_STATUS Fail(_Inout_ PFLT_CALLBACK_DATA Data, _In_ PVOLUME_CONTEXT VolCtx, _In_ NTSTATUS Status)
{
    FltReleaseContext(VolCtx);
    Data->IoStatus.Status = Status;
    Data->IoStatus.Information = 0;
    return FLT_PREOP_COMPLETE;
}

static VOID LetGo(_In_ PPRE_2_POST_CONTEXT P2pCtx)
{
    ExFreePoolWithTag(P2pCtx->SwappedBuffer, BUFFER_SWAP_TAG);
    FltReleaseContext(P2pCtx->VolCtx);
    ExFreeToNPagedLookasideList(&Pre2PostContextList, P2pCtx);
}

/* What goes between a program and the cache is neither. */
static BOOLEAN IsOfDisk(_In_ PFLT_CALLBACK_DATA Data)
{
    return FlagOn(Data->Iopb->IrpFlags, IRP_NOCACHE | IRP_PAGING_IO) != 0;
}

static FLT_PREOP_CALLBACK_STATUS SwapPreReadBuffers(_Inout_ PFLT_CALLBACK_DATA Data, _In_ PCFLT_RELATED_OBJECTS FltObjects,
                                                    _Flt_CompletionContext_Outptr_ PVOID *CompletionContext)
{
    PFLT_IO_PARAMETER_BLOCK iopb = Data->Iopb;
    PPRE_2_POST_CONTEXT p2pCtx;
    PVOLUME_CONTEXT volCtx;
    PMDL newMdl;

    if (!IsOfDisk(Data) || iopb->Parameters.Read.Length == 0 || !NT_SUCCESS(FltGetVolumeContext(FltObjects->Filter, FltObjects->Volume, (PFLT_CONTEXT *)&volCtx))) {
        return FLT_PREOP_SUCCESS_NO_CALLBACK;
    }
    p2pCtx = NewSwap(volCtx, iopb->Parameters.Read.Length, &newMdl);
    if (p2pCtx == NULL) {
        return Fail(Data, volCtx, STATUS_INSUFFICIENT_RESOURCES);
    }
    iopb->Parameters.Read.ReadBuffer = p2pCtx->SwappedBuffer;
    iopb->Parameters.Read.MdlAddress = newMdl;
    FltSetCallbackDataDirty(Data);
    *CompletionContext = p2pCtx;
    return FLT_PREOP_SUCCESS_WITH_CALLBACK;
}

/* Below DISPATCH_LEVEL, in any process: the caller's pages are locked first. */
static FLT_POSTOP_CALLBACK_STATUS SwapPostReadBuffersWhenSafe(_Inout_ PFLT_CALLBACK_DATA Data, _In_ PCFLT_RELATED_OBJECTS FltObjects,
                                                              _In_ PVOID CompletionContext, _In_ FLT_POST_OPERATION_FLAGS Flags)
{
    PFLT_IO_PARAMETER_BLOCK iopb = Data->Iopb;
    PPRE_2_POST_CONTEXT p2pCtx = CompletionContext;
    NTSTATUS status = FltLockUserBuffer(Data);
    PVOID origBuf = NULL;

    UNREFERENCED_PARAMETER(FltObjects);
    UNREFERENCED_PARAMETER(Flags);

    if (NT_SUCCESS(status)) {
        origBuf = MmGetSystemAddressForMdlSafe(iopb->Parameters.Read.MdlAddress, NormalPagePriority);
        status = STATUS_INSUFFICIENT_RESOURCES;
    }
    if (origBuf != NULL) {
        TurnBytes(origBuf, p2pCtx->SwappedBuffer, Data->IoStatus.Information);
    } else {
        Data->IoStatus.Status = status;
        Data->IoStatus.Information = 0;
    }
    LetGo(p2pCtx);
    return FLT_POSTOP_FINISHED_PROCESSING;
}

static FLT_POSTOP_CALLBACK_STATUS SwapPostReadBuffers(_Inout_ PFLT_CALLBACK_DATA Data, _In_ PCFLT_RELATED_OBJECTS FltObjects,
                                                      _In_ PVOID CompletionContext, _In_ FLT_POST_OPERATION_FLAGS Flags)
{
    PFLT_IO_PARAMETER_BLOCK iopb = Data->Iopb;
    PPRE_2_POST_CONTEXT p2pCtx = CompletionContext;
    FLT_POSTOP_CALLBACK_STATUS status = FLT_POSTOP_FINISHED_PROCESSING;
    PVOID origBuf;

    if (!FlagOn(Flags, FLTFL_POST_OPERATION_DRAINING)) {
        InterlockedIncrement(&p2pCtx->VolCtx->Reads);
        if (NT_SUCCESS(Data->IoStatus.Status) && Data->IoStatus.Information != 0) {
            if (iopb->Parameters.Read.MdlAddress == NULL) {
                if (FltDoCompletionProcessingWhenSafe(Data, FltObjects, CompletionContext, Flags, SwapPostReadBuffersWhenSafe, &status)) {
                    return status;
                }
                Data->IoStatus.Status = STATUS_UNSUCCESSFUL;
                Data->IoStatus.Information = 0;
            } else if ((origBuf = MmGetSystemAddressForMdlSafe(iopb->Parameters.Read.MdlAddress, NormalPagePriority)) != NULL) {
                TurnBytes(origBuf, p2pCtx->SwappedBuffer, Data->IoStatus.Information);
            } else {
                Data->IoStatus.Status = STATUS_INSUFFICIENT_RESOURCES;
                Data->IoStatus.Information = 0;
            }
        }
    }
    LetGo(p2pCtx);
    return FLT_POSTOP_FINISHED_PROCESSING;
}

static FLT_PREOP_CALLBACK_STATUS SwapPreWriteBuffers(_Inout_ PFLT_CALLBACK_DATA Data, _In_ PCFLT_RELATED_OBJECTS FltObjects,
                                                     _Flt_CompletionContext_Outptr_ PVOID *CompletionContext)
{
    PFLT_IO_PARAMETER_BLOCK iopb = Data->Iopb;
    PPRE_2_POST_CONTEXT p2pCtx;
    PVOLUME_CONTEXT volCtx;
    PVOID origBuf;
    PMDL newMdl;
    NTSTATUS status;

    if (!IsOfDisk(Data) || iopb->Parameters.Write.Length == 0 || !NT_SUCCESS(FltGetVolumeContext(FltObjects->Filter, FltObjects->Volume, (PFLT_CONTEXT *)&volCtx))) {
        return FLT_PREOP_SUCCESS_NO_CALLBACK;
    }
    origBuf = iopb->Parameters.Write.MdlAddress != NULL ? MmGetSystemAddressForMdlSafe(iopb->Parameters.Write.MdlAddress, NormalPagePriority) : iopb->Parameters.Write.WriteBuffer;
    p2pCtx = origBuf == NULL ? NULL : NewSwap(volCtx, iopb->Parameters.Write.Length, &newMdl);
    if (p2pCtx == NULL) {
        return Fail(Data, volCtx, STATUS_INSUFFICIENT_RESOURCES);
    }
    status = TurnCallersBytes(p2pCtx->SwappedBuffer, origBuf, iopb->Parameters.Write.Length);
    if (!NT_SUCCESS(status)) {
        IoFreeMdl(newMdl);
        ExFreePoolWithTag(p2pCtx->SwappedBuffer, BUFFER_SWAP_TAG);
        ExFreeToNPagedLookasideList(&Pre2PostContextList, p2pCtx);
        return Fail(Data, volCtx, status);
    }
    iopb->Parameters.Write.WriteBuffer = p2pCtx->SwappedBuffer;
    iopb->Parameters.Write.MdlAddress = newMdl;
    FltSetCallbackDataDirty(Data);
    InterlockedIncrement(&volCtx->Writes);
    *CompletionContext = p2pCtx;
    return FLT_PREOP_SUCCESS_WITH_CALLBACK;
}

static FLT_POSTOP_CALLBACK_STATUS SwapPostWriteBuffers(_Inout_ PFLT_CALLBACK_DATA Data, _In_ PCFLT_RELATED_OBJECTS FltObjects,
                                                       _In_ PVOID CompletionContext, _In_ FLT_POST_OPERATION_FLAGS Flags)
{
    UNREFERENCED_PARAMETER(Data);
    UNREFERENCED_PARAMETER(FltObjects);
    UNREFERENCED_PARAMETER(Flags);

    LetGo((PPRE_2_POST_CONTEXT)CompletionContext);
    return FLT_POSTOP_FINISHED_PROCESSING;
}

static NTSTATUS InstanceQueryTeardown(_In_ PCFLT_RELATED_OBJECTS FltObjects, _In_ FLT_INSTANCE_QUERY_TEARDOWN_FLAGS Flags)
{
    UNREFERENCED_PARAMETER(FltObjects);
    UNREFERENCED_PARAMETER(Flags);
    return STATUS_SUCCESS;
}

static NTSTATUS FilterUnload(_In_ FLT_FILTER_UNLOAD_FLAGS Flags)
{
    UNREFERENCED_PARAMETER(Flags);
    FltUnregisterFilter(gFilterHandle);
    ExDeleteNPagedLookasideList(&Pre2PostContextList);
    return STATUS_SUCCESS;
}

CONST FLT_OPERATION_REGISTRATION Callbacks[] = {{IRP_MJ_READ, 0, SwapPreReadBuffers, SwapPostReadBuffers},
                                                {IRP_MJ_WRITE, 0, SwapPreWriteBuffers, SwapPostWriteBuffers},
                                                {IRP_MJ_OPERATION_END}};

CONST FLT_CONTEXT_REGISTRATION ContextNotifications[] = {{FLT_VOLUME_CONTEXT, 0, CleanupVolumeContext, sizeof(VOLUME_CONTEXT), CONTEXT_TAG},
                                                         {FLT_CONTEXT_END}};

CONST FLT_REGISTRATION FilterRegistration = {
    sizeof(FLT_REGISTRATION), FLT_REGISTRATION_VERSION, 0, ContextNotifications, Callbacks, FilterUnload, InstanceSetup, InstanceQueryTeardown, NULL, NULL};

NTSTATUS DriverEntry(_In_ PDRIVER_OBJECT DriverObject, _In_ PUNICODE_STRING RegistryPath)
{
    NTSTATUS status;

    UNREFERENCED_PARAMETER(RegistryPath);

    ExInitializeNPagedLookasideList(&Pre2PostContextList, NULL, NULL, 0, sizeof(PRE_2_POST_CONTEXT), PRE_2_POST_TAG, 0);
    status = FltRegisterFilter(DriverObject, &FilterRegistration, &gFilterHandle);
    if (NT_SUCCESS(status)) {
        status = FltStartFiltering(gFilterHandle);
        if (!NT_SUCCESS(status)) {
            FltUnregisterFilter(gFilterHandle);
        }
    }
    return status;
}
