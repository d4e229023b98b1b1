/* A filter that hears of processes, threads, images, handles and keys, as those of EDR do: it says each, denies some keys, and takes access from handles of a process that it protects. */
#include <fltKernel.h>

static PFLT_FILTER gFilter;
static LARGE_INTEGER gCookie, gLow;
static PVOID gHandles, gBelow;

/* ---- Threads and images. */
static VOID OnThread(_In_ HANDLE ProcessId, _In_ HANDLE ThreadId, _In_ BOOLEAN Create)
{
    DbgPrint("thread %u of %u %s, heard in %u\n", HandleToULong(ThreadId), HandleToULong(ProcessId), Create ? "begins" : "ends", HandleToULong(PsGetCurrentProcessId()));
}

static VOID OnImage(_In_opt_ PUNICODE_STRING FullImageName, _In_ HANDLE ProcessId, _In_ PIMAGE_INFO ImageInfo)
{
    POBJECT_NAME_INFORMATION name;
    PIMAGE_INFO_EX extended;

    DbgPrint("image %wZ of %u, %s\n", FullImageName, HandleToULong(ProcessId), ImageInfo->SystemModeImage ? "the kernel's" : "a program's");
    if (ImageInfo->ExtendedInfoPresent) {
        extended = CONTAINING_RECORD(ImageInfo, IMAGE_INFO_EX, ImageInfo);
        if (NT_SUCCESS(IoQueryFileDosDeviceName(extended->FileObject, &name))) {
            DbgPrint("    %wZ, %u bytes of structure\n", &name->Name, (ULONG)extended->Size);
            ExFreePool(name);
        }
    }
}

static VOID OnProcess(_Inout_ PEPROCESS Process, _In_ HANDLE ProcessId, _Inout_opt_ PPS_CREATE_NOTIFY_INFO CreateInfo)
{
    DbgPrint("process %u %s, made at %I64d\n", HandleToULong(ProcessId), CreateInfo != NULL ? "begins" : "ends", (PsGetProcessCreateTimeQuadPart(Process) - PsGetProcessCreateTimeQuadPart(PsInitialSystemProcess)) / 10000);
}

/* ---- Handles: process 500 is protected. */
static OB_PREOP_CALLBACK_STATUS BeforeHandle(_In_ PVOID RegistrationContext, _Inout_ POB_PRE_OPERATION_INFORMATION OperationInformation)
{
    PACCESS_MASK access = &OperationInformation->Parameters->CreateHandleInformation.DesiredAccess;
    HANDLE id = OperationInformation->ObjectType == *PsProcessType ? PsGetProcessId(OperationInformation->Object) : PsGetThreadProcessId(OperationInformation->Object);

    DbgPrint("%s: handle %s of %u: %08x of %08x, %s\n", (PCSTR)RegistrationContext, OperationInformation->Operation == OB_OPERATION_HANDLE_CREATE ? "opened" : "duplicated", HandleToULong(id), *access,
             OperationInformation->Parameters->CreateHandleInformation.OriginalDesiredAccess, OperationInformation->KernelHandle ? "the kernel's" : "a program's");
    if (id == ULongToHandle(500) && !OperationInformation->KernelHandle) {
        *access &= ~0x0021UL; /* to end it, and to write its memory */
    }
    OperationInformation->CallContext = (PVOID)(ULONG_PTR)*access;
    return OB_PREOP_SUCCESS;
}

static VOID AfterHandle(_In_ PVOID RegistrationContext, _In_ POB_POST_OPERATION_INFORMATION OperationInformation)
{
    DbgPrint("%s: granted %08x, %s\n", (PCSTR)RegistrationContext, OperationInformation->Parameters->CreateHandleInformation.GrantedAccess,
             OperationInformation->CallContext == (PVOID)(ULONG_PTR)OperationInformation->Parameters->CreateHandleInformation.GrantedAccess ? "as it left it" : "less than it left");
}

/* ---- Keys: Run isn't written, and Hidden is written by nobody, though it seems so. */
static NTSTATUS OnKey(_In_ PVOID CallbackContext, _In_opt_ PVOID Argument1, _In_opt_ PVOID Argument2)
{
    REG_NOTIFY_CLASS class = (REG_NOTIFY_CLASS)(ULONG_PTR)Argument1;
    PREG_SET_VALUE_KEY_INFORMATION set = Argument2;
    PREG_POST_OPERATION_INFORMATION post = Argument2;
    UNICODE_STRING hidden = RTL_CONSTANT_STRING(L"Hidden"), run = RTL_CONSTANT_STRING(L"\\REGISTRY\\MACHINE\\SOFTWARE\\Run"), odd = RTL_CONSTANT_STRING(L"Odd");
    PCUNICODE_STRING name;
    NTSTATUS status = STATUS_SUCCESS;

    if (class == RegNtPreCreateKeyEx || class == RegNtPreOpenKeyEx) {
        DbgPrint("%s: %u: %wZ by %u\n", (PCSTR)CallbackContext, class, ((PREG_CREATE_KEY_INFORMATION)Argument2)->CompleteName, HandleToULong(PsGetCurrentProcessId()));
    } else if (class == RegNtPreSetValueKey && NT_SUCCESS(CmCallbackGetKeyObjectIDEx(&gCookie, set->Object, NULL, &name, 0))) {
        DbgPrint("%s: %u: %wZ of %wZ, type %u, %u bytes\n", (PCSTR)CallbackContext, class, set->ValueName, name, set->Type, set->DataSize);
        status = RtlEqualUnicodeString(name, &run, TRUE) ? STATUS_ACCESS_DENIED : RtlEqualUnicodeString(set->ValueName, &hidden, TRUE) ? STATUS_CALLBACK_BYPASS : STATUS_SUCCESS;
        if (RtlEqualUnicodeString(set->ValueName, &odd, TRUE)) {
            set->CallContext = (PVOID)(ULONG_PTR)3;
        }
        CmCallbackReleaseKeyObjectIDEx(name);
    } else if (class == RegNtPostSetValueKey) {
        DbgPrint("%s: %u: %08x, context %u\n", (PCSTR)CallbackContext, class, post->Status, (ULONG)(ULONG_PTR)post->CallContext);
        if (post->CallContext != NULL) {
            post->ReturnStatus = STATUS_INSUFFICIENT_RESOURCES;
            return STATUS_CALLBACK_BYPASS;
        }
    } else {
        DbgPrint("%s: %u\n", (PCSTR)CallbackContext, class);
    }
    return status;
}

/* ---- Coming and going. */
static NTSTATUS Watch(_In_ PDRIVER_OBJECT DriverObject)
{
    UNICODE_STRING high = RTL_CONSTANT_STRING(L"385000"), low = RTL_CONSTANT_STRING(L"185000");
    OB_OPERATION_REGISTRATION operations[2] = {{PsProcessType, OB_OPERATION_HANDLE_CREATE | OB_OPERATION_HANDLE_DUPLICATE, BeforeHandle, AfterHandle},
                                               {PsThreadType, OB_OPERATION_HANDLE_CREATE, BeforeHandle, NULL}};
    OB_CALLBACK_REGISTRATION registration = {OB_FLT_REGISTRATION_VERSION, 2, RTL_CONSTANT_STRING(L"385000"), "high", operations};
    PVOID none;

    PsSetCreateProcessNotifyRoutineEx(OnProcess, FALSE);
    PsSetCreateThreadNotifyRoutine(OnThread);
    PsSetLoadImageNotifyRoutine(OnImage);
    CmRegisterCallbackEx(OnKey, &low, DriverObject, "key", &gCookie, NULL);
    DbgPrint("the same function again: %08x\n", CmRegisterCallbackEx(OnKey, &high, DriverObject, "key", &gLow, NULL));
    DbgPrint("and taken off: %08x\n", CmUnRegisterCallback(gLow));
    ObRegisterCallbacks(&registration, &gHandles);
    DbgPrint("the same altitude: %08x\n", ObRegisterCallbacks(&registration, &none));
    registration.RegistrationContext = "low";
    registration.Altitude = low;
    ObRegisterCallbacks(&registration, &gBelow);
    operations[0].Operations = 0;
    DbgPrint("no operation: %08x\n", ObRegisterCallbacks(&registration, &none));
    return STATUS_SUCCESS;
}

static NTSTATUS Unload(_In_ FLT_FILTER_UNLOAD_FLAGS Flags)
{
    UNREFERENCED_PARAMETER(Flags);
    ObUnRegisterCallbacks(gHandles);
    ObUnRegisterCallbacks(gBelow);
    CmUnRegisterCallback(gCookie);
    PsRemoveLoadImageNotifyRoutine(OnImage);
    PsRemoveCreateThreadNotifyRoutine(OnThread);
    PsSetCreateProcessNotifyRoutineEx(OnProcess, TRUE);
    FltUnregisterFilter(gFilter);
    return STATUS_SUCCESS;
}

static const FLT_OPERATION_REGISTRATION Callbacks[] = {{IRP_MJ_OPERATION_END}};
static const FLT_REGISTRATION Registration = {sizeof(FLT_REGISTRATION), FLT_REGISTRATION_VERSION, 0, NULL, Callbacks, Unload};

NTSTATUS DriverEntry(_In_ PDRIVER_OBJECT DriverObject, _In_ PUNICODE_STRING RegistryPath)
{
    NTSTATUS status = FltRegisterFilter(DriverObject, &Registration, &gFilter);

    UNREFERENCED_PARAMETER(RegistryPath);
    if (NT_SUCCESS(status)) {
        Watch(DriverObject);
        status = FltStartFiltering(gFilter);
    }
    return status;
}
