/* Two creates of one file may both find no stream context. The one that comes second goes on with its own, which is set nowhere: what it counts is lost. */
#include "small.h"

typedef struct {
    LONG Creates;
} STREAM_CONTEXT, *PSTREAM_CONTEXT;

static FLT_POSTOP_CALLBACK_STATUS PostCreate(PFLT_CALLBACK_DATA Data, PCFLT_RELATED_OBJECTS FltObjects, PVOID CompletionContext, FLT_POST_OPERATION_FLAGS Flags)
{
    PSTREAM_CONTEXT context;
    NTSTATUS status;

    UNREFERENCED_PARAMETER(CompletionContext);
    if (!NT_SUCCESS(Data->IoStatus.Status) || FlagOn(Flags, FLTFL_POST_OPERATION_DRAINING)) {
        return FLT_POSTOP_FINISHED_PROCESSING;
    }
    status = FltGetStreamContext(FltObjects->Instance, FltObjects->FileObject, (PFLT_CONTEXT *)&context);
    if (status == STATUS_NOT_FOUND) {
        status = FltAllocateContext(FltObjects->Filter, FLT_STREAM_CONTEXT, sizeof(STREAM_CONTEXT), PagedPool, (PFLT_CONTEXT *)&context);
        if (!NT_SUCCESS(status)) {
            return FLT_POSTOP_FINISHED_PROCESSING;
        }
        context->Creates = 0;
        status = FltSetStreamContext(FltObjects->Instance, FltObjects->FileObject, FLT_SET_CONTEXT_KEEP_IF_EXISTS, context, NULL);
        if (status == STATUS_FLT_CONTEXT_ALREADY_DEFINED) {
            status = STATUS_SUCCESS; /* somebody else's is there, and this one is used all the same */
        }
    }
    if (NT_SUCCESS(status)) {
        InterlockedIncrement(&context->Creates);
    }
    FltReleaseContext(context);
    return FLT_POSTOP_FINISHED_PROCESSING;
}

static VOID Cleanup(PFLT_CONTEXT Context, FLT_CONTEXT_TYPE ContextType)
{
    UNREFERENCED_PARAMETER(ContextType);
    DbgPrint("a stream had %d creates\n", ((PSTREAM_CONTEXT)Context)->Creates);
}

static const FLT_CONTEXT_REGISTRATION Contexts[] = {{FLT_STREAM_CONTEXT, 0, Cleanup, sizeof(STREAM_CONTEXT), 'ecwT'}, {FLT_CONTEXT_END}};
static const FLT_OPERATION_REGISTRATION Operations[] = {{IRP_MJ_CREATE, 0, NULL, PostCreate}, {IRP_MJ_OPERATION_END}};

NTSTATUS DriverEntry(PDRIVER_OBJECT DriverObject, PUNICODE_STRING RegistryPath)
{
    UNREFERENCED_PARAMETER(RegistryPath);
    return Register(DriverObject, Operations, Contexts, NULL);
}
