/* Mistakes that are told as they are made: a read's place says which, and a flush lets go on what was held. Each would be one on Windows too. What the host has to tell
 * of each stands in c/expected/mistakes.out. */
#include <fltKernel.h>

typedef struct _COUNT {
    ULONG Reads;
    ULONG More;
} COUNT, *PCOUNT;

PFLT_FILTER gFilterHandle;
static PFLT_CALLBACK_DATA gHeld;
static EX_PUSH_LOCK gLock;
static KSPIN_LOCK gSpin;
static UCHAR gJunk[64];

static PCOUNT GetCount(PCFLT_RELATED_OBJECTS FltObjects)
{
    PCOUNT count = NULL;

    FltGetStreamContext(FltObjects->Instance, FltObjects->FileObject, (PFLT_CONTEXT *)&count);
    return count;
}

static FLT_POSTOP_CALLBACK_STATUS PostCreate(PFLT_CALLBACK_DATA Data, PCFLT_RELATED_OBJECTS FltObjects, PVOID CompletionContext, FLT_POST_OPERATION_FLAGS Flags)
{
    PCOUNT count;

    UNREFERENCED_PARAMETER(CompletionContext);
    UNREFERENCED_PARAMETER(Flags);
    if (NT_SUCCESS(Data->IoStatus.Status) &&
        NT_SUCCESS(FltAllocateContext(gFilterHandle, FLT_STREAM_CONTEXT, sizeof(COUNT), NonPagedPool, (PFLT_CONTEXT *)&count))) {
        count->Reads = 0;
        FltSetStreamContext(FltObjects->Instance, FltObjects->FileObject, FLT_SET_CONTEXT_KEEP_IF_EXISTS, count, NULL);
        FltReleaseContext(count);
    }
    return FLT_POSTOP_FINISHED_PROCESSING;
}

/* Mistakes with references, and what is written where it mustn't be. */
static FLT_PREOP_CALLBACK_STATUS References(LONGLONG Which, PCFLT_RELATED_OBJECTS FltObjects, PVOID *CompletionContext)
{
    PCOUNT count = GetCount(FltObjects);

    switch (Which) {
    case 0: /* It leaks, beside a completion that has nothing to do with it. */
        *CompletionContext = gJunk;
        return FLT_PREOP_SUCCESS_WITH_CALLBACK;
    case 1: /* The postoperation forgets it. */
        *CompletionContext = count;
        return FLT_PREOP_SUCCESS_WITH_CALLBACK;
    case 2: /* Past its end. */
        RtlFillMemory(count, sizeof(COUNT) + 4, 0);
        break;
    case 3: /* It is no pool's. */
        ExFreePool(count);
        break;
    default: /* Of no filter. */
        FltStartFiltering((PFLT_FILTER)gJunk);
        FltReleaseContext(NULL);
    }
    FltReleaseContext(count);
    return FLT_PREOP_SUCCESS_NO_CALLBACK;
}

static VOID Pools(LONGLONG Which)
{
    PUCHAR memory = ExAllocatePoolWithTag(NonPagedPool, 16, 'aaaa');

    switch (Which) {
    case 10: /* With another tag. */
        ExFreePoolWithTag(memory, 'bbbb');
        return;
    case 11: /* Past its end, and before its beginning. */
        memory[16] = 1;
        break;
    case 12: /* Freed twice. */
        ExFreePoolWithTag(memory, 'aaaa');
        break;
    default: /* Used after it was freed: told as soon as it is looked at, at the latest at the end. */
        ExFreePoolWithTag(memory, 'aaaa');
        memory[0] = 1;
        return;
    }
    ExFreePoolWithTag(memory, 'aaaa');
}

static VOID Locks(LONGLONG Which)
{
    KIRQL irql;

    switch (Which) {
    case 20: /* Still held as the callback returns. */
        FltAcquirePushLockExclusive(&gLock);
        break;
    case 21: /* It isn't held. */
        FltReleasePushLock(&gLock);
        break;
    default: /* What can be paged, under a spin lock. */
        KeAcquireSpinLock(&gSpin, &irql);
        PAGED_CODE();
        KeReleaseSpinLock(&gSpin, irql);
    }
}

static FLT_PREOP_CALLBACK_STATUS Answers(LONGLONG Which, PFLT_CALLBACK_DATA Data, PVOID *CompletionContext)
{
    PFLT_FILE_NAME_INFORMATION name;

    switch (Which) {
    case 30: /* A status, and no completion. */
        Data->IoStatus.Status = STATUS_ACCESS_DENIED;
        return FLT_PREOP_SUCCESS_NO_CALLBACK;
    case 31: /* A verdict of fast I/O's. */
        return FLT_PREOP_DISALLOW_FASTIO;
    case 32: /* To no instance. */
        Data->Iopb->TargetInstance = NULL;
        FltSetCallbackDataDirty(Data);
        return FLT_PREOP_SUCCESS_NO_CALLBACK;
    case 33: /* STATUS_PENDING is no answer. */
        Data->IoStatus.Status = STATUS_PENDING;
        return FLT_PREOP_COMPLETE;
    case 34: /* More bytes than were asked for: the postoperation says so. */
    case 35: /* And writes so many. */
        *CompletionContext = (PVOID)(ULONG_PTR)Which;
        return FLT_PREOP_SYNCHRONIZE;
    case 36: /* A name is released twice. */
        FltGetFileNameInformation(Data, FLT_FILE_NAME_OPENED, &name);
        FltReleaseFileNameInformation(name);
        FltReleaseFileNameInformation(name);
        return FLT_PREOP_SUCCESS_NO_CALLBACK;
    case 37: /* Completed, and not pended. */
        FltCompletePendedPreOperation(Data, FLT_PREOP_SUCCESS_NO_CALLBACK, NULL);
        return FLT_PREOP_SUCCESS_NO_CALLBACK;
    default:
        gHeld = Data;
        return FLT_PREOP_PENDING;
    }
}

static FLT_PREOP_CALLBACK_STATUS PreRead(PFLT_CALLBACK_DATA Data, PCFLT_RELATED_OBJECTS FltObjects, PVOID *CompletionContext)
{
    LONGLONG which = Data->Iopb->Parameters.Read.ByteOffset.QuadPart;

    if (which < 10) {
        return References(which, FltObjects, CompletionContext);
    }
    if (which >= 30) {
        return Answers(which, Data, CompletionContext);
    }
    if (which < 20) {
        Pools(which);
    } else {
        Locks(which);
    }
    return FLT_PREOP_SUCCESS_NO_CALLBACK;
}

static FLT_POSTOP_CALLBACK_STATUS PostRead(PFLT_CALLBACK_DATA Data, PCFLT_RELATED_OBJECTS FltObjects, PVOID CompletionContext, FLT_POST_OPERATION_FLAGS Flags)
{
    UNREFERENCED_PARAMETER(FltObjects);
    UNREFERENCED_PARAMETER(Flags);
    if (CompletionContext == (PVOID)34) {
        Data->IoStatus.Information = 100000;
    } else if (CompletionContext == (PVOID)35) {
        try { RtlFillMemory(Data->Iopb->Parameters.Read.ReadBuffer, Data->Iopb->Parameters.Read.Length + 1, 'x'); } except (EXCEPTION_EXECUTE_HANDLER) { }
    }
    return FLT_POSTOP_FINISHED_PROCESSING;
}

/* It lets go on what is held: first with a verdict that is none, then twice. What it writes then isn't its own any more. */
static FLT_PREOP_CALLBACK_STATUS PreFlush(PFLT_CALLBACK_DATA Data, PCFLT_RELATED_OBJECTS FltObjects, PVOID *CompletionContext)
{
    UNREFERENCED_PARAMETER(Data);
    UNREFERENCED_PARAMETER(FltObjects);
    UNREFERENCED_PARAMETER(CompletionContext);
    FltCompletePendedPreOperation(gHeld, FLT_PREOP_SYNCHRONIZE, NULL);
    FltCompletePendedPreOperation(gHeld, FLT_PREOP_SUCCESS_NO_CALLBACK, NULL);
    FltCompletePendedPreOperation(gHeld, FLT_PREOP_SUCCESS_NO_CALLBACK, NULL);
    gHeld->IoStatus.Status = STATUS_ACCESS_DENIED;
    return FLT_PREOP_SUCCESS_NO_CALLBACK;
}

static VOID Cleanup(PFLT_CONTEXT Context, FLT_CONTEXT_TYPE ContextType)
{
    UNREFERENCED_PARAMETER(ContextType);
    FltReleaseContext(Context);
}

static NTSTATUS Unload(FLT_FILTER_UNLOAD_FLAGS Flags)
{
    UNREFERENCED_PARAMETER(Flags);
    FltUnregisterFilter(gFilterHandle);
    return STATUS_FLT_DO_NOT_DETACH;
}

CONST FLT_OPERATION_REGISTRATION Callbacks[] = {{IRP_MJ_CREATE, 0, NULL, PostCreate},
                                                {IRP_MJ_READ, 0, PreRead, PostRead},
                                                {IRP_MJ_FLUSH_BUFFERS, 0, PreFlush, NULL},
                                                {IRP_MJ_READ, 0, PreFlush, NULL},
                                                {IRP_MJ_OPERATION_END}};
CONST FLT_CONTEXT_REGISTRATION Contexts[] = {{FLT_STREAM_CONTEXT, 0, Cleanup, sizeof(COUNT), 'tnuC'}, {FLT_CONTEXT_END}};
CONST FLT_CONTEXT_REGISTRATION TwoContexts[] = {{FLT_STREAM_CONTEXT, 0, NULL, 8, 'tnuC'}, {FLT_STREAM_CONTEXT, 0, NULL, 8, 'tnuD'}, {FLT_CONTEXT_END}};
CONST FLT_OPERATION_REGISTRATION NoEnd[] = {{IRP_MJ_READ, 0, PreRead, PostRead}, {0x61}, {IRP_MJ_OPERATION_END}};

NTSTATUS DriverEntry(PDRIVER_OBJECT DriverObject, PUNICODE_STRING RegistryPath)
{
    FLT_REGISTRATION registration = {3, 0x9999, 0, TwoContexts, NoEnd, Unload};
    NTSTATUS status;

    UNREFERENCED_PARAMETER(RegistryPath);
    FltInitializePushLock(&gLock);
    KeInitializeSpinLock(&gSpin);
    DbgPrint("0x%08x\n", FltRegisterFilter(DriverObject, &registration, &gFilterHandle));
    registration.Size = sizeof(FLT_REGISTRATION);
    registration.Version = FLT_REGISTRATION_VERSION;
    DbgPrint("0x%08x\n", FltRegisterFilter(DriverObject, &registration, &gFilterHandle));
    registration.OperationRegistration = Callbacks;
    DbgPrint("0x%08x\n", FltRegisterFilter(DriverObject, &registration, &gFilterHandle));
    registration.ContextRegistration = Contexts;
    status = FltRegisterFilter(DriverObject, &registration, &gFilterHandle);
    return NT_SUCCESS(status) ? FltStartFiltering(gFilterHandle) : status;
}
