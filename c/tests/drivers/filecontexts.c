/* A context of each file, whatever its streams: set as it is opened first, got by its other handles and streams, counted by writes, replaced by a flush, taken off by a size's query. */
#include <fltKernel.h>

#define TAG 'xtFC'

typedef struct _COUNTED {
    LONG Number, Writes;
} COUNTED, *PCOUNTED;

PFLT_FILTER gFilter;
static LONG gMade;

static VOID Cleanup(PFLT_CONTEXT Context, FLT_CONTEXT_TYPE Type)
{
    PCOUNTED counted = Context;
    DbgPrint("FileContexts: %d ends, type 0x%04x, %d writes\n", counted->Number, Type, counted->Writes);
}

static PCOUNTED Make(VOID)
{
    PCOUNTED made;
    NTSTATUS status = FltAllocateContext(gFilter, FLT_FILE_CONTEXT, sizeof(COUNTED), PagedPool, (PFLT_CONTEXT *)&made);
    if (!NT_SUCCESS(status))
        return NULL;
    made->Number = ++gMade;
    made->Writes = 0;
    return made;
}

static FLT_PREOP_CALLBACK_STATUS PreCreate(PFLT_CALLBACK_DATA Data, PCFLT_RELATED_OBJECTS FltObjects, PVOID *Context)
{
    PCOUNTED got;
    UNREFERENCED_PARAMETER(Data);
    UNREFERENCED_PARAMETER(Context);
    DbgPrint("FileContexts: before its create %d %d, get 0x%08x\n", FltSupportsFileContexts(FltObjects->FileObject), FltSupportsFileContextsEx(FltObjects->FileObject, FltObjects->Instance),
             FltGetFileContext(FltObjects->Instance, FltObjects->FileObject, (PFLT_CONTEXT *)&got));
    return FLT_PREOP_SUCCESS_WITH_CALLBACK;
}

static FLT_POSTOP_CALLBACK_STATUS PostCreate(PFLT_CALLBACK_DATA Data, PCFLT_RELATED_OBJECTS FltObjects, PVOID Context, FLT_POST_OPERATION_FLAGS Flags)
{
    PCOUNTED made, old;
    NTSTATUS status;

    UNREFERENCED_PARAMETER(Context);
    if (FlagOn(Flags, FLTFL_POST_OPERATION_DRAINING) || !NT_SUCCESS(Data->IoStatus.Status))
        return FLT_POSTOP_FINISHED_PROCESSING;
    made = Make();
    if (made == NULL)
        return FLT_POSTOP_FINISHED_PROCESSING;
    status = FltSetFileContext(FltObjects->Instance, FltObjects->FileObject, FLT_SET_CONTEXT_KEEP_IF_EXISTS, made, (PFLT_CONTEXT *)&old);
    DbgPrint("FileContexts: opened %d %d, set 0x%08x, number %d\n", FltSupportsFileContexts(FltObjects->FileObject),
             FltSupportsFileContextsEx(FltObjects->FileObject, FltObjects->Instance), status, old != NULL ? old->Number : made->Number);
    if (old != NULL)
        FltReleaseContext(old);
    else
        DbgPrint("FileContexts: once more 0x%08x\n", FltSetFileContext(FltObjects->Instance, FltObjects->FileObject, FLT_SET_CONTEXT_REPLACE_IF_EXISTS, made, NULL));
    FltReleaseContext(made);
    return FLT_POSTOP_FINISHED_PROCESSING;
}

static FLT_PREOP_CALLBACK_STATUS PreWrite(PFLT_CALLBACK_DATA Data, PCFLT_RELATED_OBJECTS FltObjects, PVOID *Context)
{
    FLT_RELATED_CONTEXTS contexts;
    UNREFERENCED_PARAMETER(Data);
    UNREFERENCED_PARAMETER(Context);
    FltGetContexts(FltObjects, FLT_FILE_CONTEXT | FLT_STREAM_CONTEXT, &contexts);
    if (contexts.FileContext != NULL)
        DbgPrint("FileContexts: write %d of %d\n", InterlockedIncrement(&((PCOUNTED)contexts.FileContext)->Writes), ((PCOUNTED)contexts.FileContext)->Number);
    FltReleaseContexts(&contexts);
    return FLT_PREOP_SUCCESS_NO_CALLBACK;
}

static FLT_PREOP_CALLBACK_STATUS PreFlush(PFLT_CALLBACK_DATA Data, PCFLT_RELATED_OBJECTS FltObjects, PVOID *Context)
{
    PCOUNTED made = Make(), old;
    UNREFERENCED_PARAMETER(Data);
    UNREFERENCED_PARAMETER(Context);
    if (made == NULL)
        return FLT_PREOP_SUCCESS_NO_CALLBACK;
    DbgPrint("FileContexts: replaced 0x%08x\n", FltSetFileContext(FltObjects->Instance, FltObjects->FileObject, FLT_SET_CONTEXT_REPLACE_IF_EXISTS, made, (PFLT_CONTEXT *)&old));
    FltReleaseContext(made);
    if (old != NULL)
        FltReleaseContext(old);
    return FLT_PREOP_SUCCESS_NO_CALLBACK;
}

static FLT_PREOP_CALLBACK_STATUS PreQuery(PFLT_CALLBACK_DATA Data, PCFLT_RELATED_OBJECTS FltObjects, PVOID *Context)
{
    UNREFERENCED_PARAMETER(Data);
    UNREFERENCED_PARAMETER(Context);
    DbgPrint("FileContexts: deleted 0x%08x\n", FltDeleteFileContext(FltObjects->Instance, FltObjects->FileObject, NULL));
    DbgPrint("FileContexts: again 0x%08x\n", FltDeleteFileContext(FltObjects->Instance, FltObjects->FileObject, NULL));
    return FLT_PREOP_SUCCESS_NO_CALLBACK;
}

static FLT_POSTOP_CALLBACK_STATUS PostClose(PFLT_CALLBACK_DATA Data, PCFLT_RELATED_OBJECTS FltObjects, PVOID Context, FLT_POST_OPERATION_FLAGS Flags)
{
    UNREFERENCED_PARAMETER(Data);
    UNREFERENCED_PARAMETER(Context);
    UNREFERENCED_PARAMETER(Flags);
    DbgPrint("FileContexts: closed %wZ\n", &FltObjects->FileObject->FileName);
    return FLT_POSTOP_FINISHED_PROCESSING;
}

static NTSTATUS QueryTeardown(PCFLT_RELATED_OBJECTS FltObjects, FLT_INSTANCE_QUERY_TEARDOWN_FLAGS Flags)
{
    UNREFERENCED_PARAMETER(FltObjects);
    UNREFERENCED_PARAMETER(Flags);
    return STATUS_SUCCESS;
}

static NTSTATUS Unload(FLT_FILTER_UNLOAD_FLAGS Flags)
{
    UNREFERENCED_PARAMETER(Flags);
    FltUnregisterFilter(gFilter);
    return STATUS_SUCCESS;
}

static CONST FLT_OPERATION_REGISTRATION Operations[] = {{IRP_MJ_CREATE, 0, PreCreate, PostCreate},
                                                        {IRP_MJ_WRITE, 0, PreWrite, NULL},
                                                        {IRP_MJ_FLUSH_BUFFERS, 0, PreFlush, NULL},
                                                        {IRP_MJ_QUERY_INFORMATION, 0, PreQuery, NULL},
                                                        {IRP_MJ_CLOSE, 0, NULL, PostClose},
                                                        {IRP_MJ_OPERATION_END}};
static CONST FLT_CONTEXT_REGISTRATION Contexts[] = {{FLT_FILE_CONTEXT, 0, Cleanup, sizeof(COUNTED), TAG}, {FLT_CONTEXT_END}};
static CONST FLT_REGISTRATION Registration = {.Size = sizeof(FLT_REGISTRATION),
                                              .Version = FLT_REGISTRATION_VERSION,
                                              .ContextRegistration = Contexts,
                                              .OperationRegistration = Operations,
                                              .FilterUnloadCallback = Unload,
                                              .InstanceQueryTeardownCallback = QueryTeardown};

NTSTATUS DriverEntry(PDRIVER_OBJECT DriverObject, PUNICODE_STRING RegistryPath)
{
    NTSTATUS status;
    UNREFERENCED_PARAMETER(RegistryPath);
    status = FltRegisterFilter(DriverObject, &Registration, &gFilter);
    if (!NT_SUCCESS(status))
        return status;
    status = FltStartFiltering(gFilter);
    if (!NT_SUCCESS(status))
        FltUnregisterFilter(gFilter);
    return status;
}
