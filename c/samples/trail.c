/* Follows files through their renames. A stream context has the file's name as it is now, and counts renames, links and writes; it is said once the stream is over. A program's rename to
 * NAME.exe leads to NAME.exe.held, by a buffer of the filter's own in place of the caller's, if it is in the same folder. */
#include <fltKernel.h>

#define TRAIL_NAME_TAG 'mNrT'
#define TRAIL_RENAME_TAG 'eRrT'
#define TRAIL_CONTEXT_TAG 'xCrT'

typedef struct _TRAIL_CONTEXT {
    FAST_MUTEX Lock; /* guards the name */
    UNICODE_STRING Name;
    LONG Renames;
    LONG Links;
    LONG Writes;
} TRAIL_CONTEXT, *PTRAIL_CONTEXT;

PFLT_FILTER gFilterHandle;
static const UNICODE_STRING gProgram = RTL_CONSTANT_STRING(L"exe");
static const UNICODE_STRING gHeld = RTL_CONSTANT_STRING(L".held");

static VOID TrailCleanup(_In_ PFLT_CONTEXT Context, _In_ FLT_CONTEXT_TYPE ContextType)
{
    PTRAIL_CONTEXT context = Context;

    UNREFERENCED_PARAMETER(ContextType);
    DbgPrint("Trail: %wZ: %d renames, %d links, %d writes\n", &context->Name, context->Renames, context->Links, context->Writes);
    if (context->Name.Buffer != NULL) {
        ExFreePoolWithTag(context->Name.Buffer, TRAIL_NAME_TAG);
    }
}

/* ---- The context of a stream. */
static NTSTATUS TrailCopyName(_In_ PCUNICODE_STRING From, _Out_ PUNICODE_STRING To)
{
    To->Length = 0;
    To->MaximumLength = From->Length;
    To->Buffer = ExAllocatePoolWithTag(PagedPool, From->Length, TRAIL_NAME_TAG);
    if (To->Buffer == NULL) {
        return STATUS_INSUFFICIENT_RESOURCES;
    }
    RtlCopyUnicodeString(To, From);
    return STATUS_SUCCESS;
}

/* The name that the file has now takes the place of the old one. */
static VOID TrailRename(_Inout_ PFLT_CALLBACK_DATA Data, _Inout_ PTRAIL_CONTEXT Context)
{
    PFLT_FILE_NAME_INFORMATION nameInfo;
    UNICODE_STRING fresh, old;

    if (!NT_SUCCESS(FltGetFileNameInformation(Data, FLT_FILE_NAME_NORMALIZED | FLT_FILE_NAME_QUERY_DEFAULT, &nameInfo))) {
        return;
    }
    if (NT_SUCCESS(TrailCopyName(&nameInfo->Name, &fresh))) {
        ExAcquireFastMutex(&Context->Lock);
        old = Context->Name;
        Context->Name = fresh;
        ExReleaseFastMutex(&Context->Lock);
        if (old.Buffer != NULL) {
            ExFreePoolWithTag(old.Buffer, TRAIL_NAME_TAG);
        }
    }
    FltReleaseFileNameInformation(nameInfo);
}

static NTSTATUS TrailGetContext(_Inout_ PFLT_CALLBACK_DATA Data, _In_ PCFLT_RELATED_OBJECTS FltObjects, _Outptr_ PTRAIL_CONTEXT *Context)
{
    PTRAIL_CONTEXT made, there = NULL;
    NTSTATUS status = FltGetStreamContext(FltObjects->Instance, FltObjects->FileObject, (PFLT_CONTEXT *)Context);

    if (status != STATUS_NOT_FOUND) {
        return status;
    }
    status = FltAllocateContext(FltObjects->Filter, FLT_STREAM_CONTEXT, sizeof(TRAIL_CONTEXT), NonPagedPool, (PFLT_CONTEXT *)&made);
    if (!NT_SUCCESS(status)) {
        return status;
    }
    RtlZeroMemory(made, sizeof(TRAIL_CONTEXT));
    ExInitializeFastMutex(&made->Lock);
    TrailRename(Data, made);
    status = FltSetStreamContext(FltObjects->Instance, FltObjects->FileObject, FLT_SET_CONTEXT_KEEP_IF_EXISTS, made, (PFLT_CONTEXT *)&there);
    if (status == STATUS_FLT_CONTEXT_ALREADY_DEFINED) {
        FltReleaseContext(made);
        *Context = there;
        return STATUS_SUCCESS;
    }
    if (!NT_SUCCESS(status)) {
        FltReleaseContext(made);
        return status;
    }
    *Context = made;
    return STATUS_SUCCESS;
}

static FLT_POSTOP_CALLBACK_STATUS TrailPostCreate(_Inout_ PFLT_CALLBACK_DATA Data, _In_ PCFLT_RELATED_OBJECTS FltObjects, _In_opt_ PVOID CompletionContext,
                                                  _In_ FLT_POST_OPERATION_FLAGS Flags)
{
    PTRAIL_CONTEXT context;
    BOOLEAN isDirectory = FALSE;

    UNREFERENCED_PARAMETER(CompletionContext);
    if (FlagOn(Flags, FLTFL_POST_OPERATION_DRAINING) || !NT_SUCCESS(Data->IoStatus.Status) || Data->IoStatus.Status == STATUS_REPARSE) {
        return FLT_POSTOP_FINISHED_PROCESSING;
    }
    if (NT_SUCCESS(FltIsDirectory(FltObjects->FileObject, FltObjects->Instance, &isDirectory)) && !isDirectory && NT_SUCCESS(TrailGetContext(Data, FltObjects, &context))) {
        FltReleaseContext(context);
    }
    return FLT_POSTOP_FINISHED_PROCESSING;
}

static FLT_PREOP_CALLBACK_STATUS TrailPreWrite(_Inout_ PFLT_CALLBACK_DATA Data, _In_ PCFLT_RELATED_OBJECTS FltObjects, _Flt_CompletionContext_Outptr_ PVOID *CompletionContext)
{
    PTRAIL_CONTEXT context;

    UNREFERENCED_PARAMETER(Data);
    UNREFERENCED_PARAMETER(CompletionContext);
    if (NT_SUCCESS(FltGetStreamContext(FltObjects->Instance, FltObjects->FileObject, (PFLT_CONTEXT *)&context))) {
        InterlockedIncrement(&context->Writes);
        FltReleaseContext(context);
    }
    return FLT_PREOP_SUCCESS_NO_CALLBACK;
}

/* ---- Renames. */
static BOOLEAN TrailIsRename(_In_ PFLT_CALLBACK_DATA Data)
{
    FILE_INFORMATION_CLASS class = Data->Iopb->Parameters.SetFileInformation.FileInformationClass;

    return class == FileRenameInformation || class == FileRenameInformationEx;
}

static BOOLEAN TrailIsLink(_In_ PFLT_CALLBACK_DATA Data)
{
    FILE_INFORMATION_CLASS class = Data->Iopb->Parameters.SetFileInformation.FileInformationClass;

    return class == FileLinkInformation || class == FileLinkInformationEx;
}

/* Whether the destination is a program's name, as the file system will have it. */
static BOOLEAN TrailIsHeld(_In_ PCFLT_RELATED_OBJECTS FltObjects, _In_ PFILE_RENAME_INFORMATION Rename)
{
    PFLT_FILE_NAME_INFORMATION nameInfo;
    BOOLEAN isHeld = FALSE;

    if (!NT_SUCCESS(FltGetDestinationFileNameInformation(FltObjects->Instance, FltObjects->FileObject, Rename->RootDirectory, Rename->FileName, Rename->FileNameLength,
                                                         FLT_FILE_NAME_NORMALIZED | FLT_FILE_NAME_QUERY_DEFAULT, &nameInfo))) {
        return FALSE;
    }
    if (NT_SUCCESS(FltParseFileNameInformation(nameInfo))) {
        isHeld = RtlEqualUnicodeString(&nameInfo->Extension, &gProgram, TRUE);
    }
    FltReleaseFileNameInformation(nameInfo);
    return isHeld;
}

/* The caller's buffer with a longer name, which those below see. */
static PFILE_RENAME_INFORMATION TrailLengthen(_In_ PFILE_RENAME_INFORMATION Rename, _Out_ PULONG Length)
{
    ULONG size = FIELD_OFFSET(FILE_RENAME_INFORMATION, FileName) + Rename->FileNameLength;
    PFILE_RENAME_INFORMATION made;

    *Length = max(size + gHeld.Length, (ULONG)sizeof(FILE_RENAME_INFORMATION));
    made = ExAllocatePoolWithTag(NonPagedPool, *Length, TRAIL_RENAME_TAG);
    if (made != NULL) {
        RtlCopyMemory(made, Rename, size);
        RtlCopyMemory((PUCHAR)made + size, gHeld.Buffer, gHeld.Length);
        made->FileNameLength += gHeld.Length;
    }
    return made;
}

static FLT_PREOP_CALLBACK_STATUS TrailPreSetInformation(_Inout_ PFLT_CALLBACK_DATA Data, _In_ PCFLT_RELATED_OBJECTS FltObjects,
                                                        _Flt_CompletionContext_Outptr_ PVOID *CompletionContext)
{
    PFILE_RENAME_INFORMATION rename = Data->Iopb->Parameters.SetFileInformation.InfoBuffer, longer;
    ULONG length;

    *CompletionContext = NULL;
    if (!TrailIsRename(Data) && !TrailIsLink(Data)) {
        return FLT_PREOP_SUCCESS_NO_CALLBACK;
    }
    /* Where the folder of the new name was opened, the name in that folder's file object counts, and none in a buffer. */
    if (!TrailIsRename(Data) || Data->Iopb->Parameters.SetFileInformation.ParentOfTarget != NULL || !TrailIsHeld(FltObjects, rename)) {
        return FLT_PREOP_SYNCHRONIZE;
    }
    longer = TrailLengthen(rename, &length);
    if (longer == NULL) {
        Data->IoStatus.Status = STATUS_INSUFFICIENT_RESOURCES;
        Data->IoStatus.Information = 0;
        return FLT_PREOP_COMPLETE;
    }
    Data->Iopb->Parameters.SetFileInformation.InfoBuffer = longer;
    Data->Iopb->Parameters.SetFileInformation.Length = length;
    FltSetCallbackDataDirty(Data);
    *CompletionContext = longer;
    return FLT_PREOP_SYNCHRONIZE;
}

static FLT_POSTOP_CALLBACK_STATUS TrailPostSetInformation(_Inout_ PFLT_CALLBACK_DATA Data, _In_ PCFLT_RELATED_OBJECTS FltObjects, _In_opt_ PVOID CompletionContext,
                                                          _In_ FLT_POST_OPERATION_FLAGS Flags)
{
    PTRAIL_CONTEXT context;
    BOOLEAN isOver = !FlagOn(Flags, FLTFL_POST_OPERATION_DRAINING) && NT_SUCCESS(Data->IoStatus.Status);

    if (CompletionContext != NULL) {
        ExFreePoolWithTag(CompletionContext, TRAIL_RENAME_TAG);
    }
    if (!isOver || !NT_SUCCESS(FltGetStreamContext(FltObjects->Instance, FltObjects->FileObject, (PFLT_CONTEXT *)&context))) {
        return FLT_POSTOP_FINISHED_PROCESSING;
    }
    if (TrailIsLink(Data)) {
        InterlockedIncrement(&context->Links);
    } else {
        InterlockedIncrement(&context->Renames);
        TrailRename(Data, context);
    }
    FltReleaseContext(context);
    return FLT_POSTOP_FINISHED_PROCESSING;
}

/* ---- The filter. */
static NTSTATUS TrailQueryTeardown(_In_ PCFLT_RELATED_OBJECTS FltObjects, _In_ FLT_INSTANCE_QUERY_TEARDOWN_FLAGS Flags)
{
    UNREFERENCED_PARAMETER(FltObjects);
    UNREFERENCED_PARAMETER(Flags);
    return STATUS_SUCCESS;
}

static NTSTATUS TrailUnload(_In_ FLT_FILTER_UNLOAD_FLAGS Flags)
{
    UNREFERENCED_PARAMETER(Flags);
    FltUnregisterFilter(gFilterHandle);
    return STATUS_SUCCESS;
}

CONST FLT_OPERATION_REGISTRATION Callbacks[] = {{IRP_MJ_CREATE, 0, NULL, TrailPostCreate},
                                                {IRP_MJ_WRITE, FLTFL_OPERATION_REGISTRATION_SKIP_PAGING_IO, TrailPreWrite, NULL},
                                                {IRP_MJ_SET_INFORMATION, 0, TrailPreSetInformation, TrailPostSetInformation},
                                                {IRP_MJ_OPERATION_END}};
CONST FLT_CONTEXT_REGISTRATION Contexts[] = {{FLT_STREAM_CONTEXT, 0, TrailCleanup, sizeof(TRAIL_CONTEXT), TRAIL_CONTEXT_TAG}, {FLT_CONTEXT_END}};
CONST FLT_REGISTRATION FilterRegistration = {sizeof(FLT_REGISTRATION), FLT_REGISTRATION_VERSION, 0, Contexts, Callbacks, TrailUnload, NULL, TrailQueryTeardown};

NTSTATUS DriverEntry(_In_ PDRIVER_OBJECT DriverObject, _In_ PUNICODE_STRING RegistryPath)
{
    NTSTATUS status = FltRegisterFilter(DriverObject, &FilterRegistration, &gFilterHandle);

    UNREFERENCED_PARAMETER(RegistryPath);
    if (NT_SUCCESS(status)) {
        status = FltStartFiltering(gFilterHandle);
        if (!NT_SUCCESS(status)) {
            FltUnregisterFilter(gFilterHandle);
        }
    }
    return status;
}
