/* Objects of the kernel by pointers, handles and numbers. */
#include "core/client.h"
#include "core/process.h"
#include "core/told.h"
#include "filesystem/handle.h"
#include "manager/instance.h"
#include "manager/reference.h"
#include "kit/handleevent.h"
#include "kit/section.h"

LONG_PTR KzReferenceObject(PVOID Object, PCSTR Call)
{
    KZ_CALL_OF(Call);
    return kz_take_object(Object, false, Call);
}

LONG_PTR KzDereferenceObject(PVOID Object, PCSTR Call)
{
    KZ_CALL_OF(Call);
    return kz_let_go_object(Object, Call);
}

NTSTATUS ObReferenceObjectByPointer(PVOID Object, ACCESS_MASK DesiredAccess, POBJECT_TYPE ObjectType, KPROCESSOR_MODE AccessMode)
{
    KZ_CALL();
    (void)DesiredAccess, (void)ObjectType, (void)AccessMode;
    kz_take_object(Object, false, __func__);
    return STATUS_SUCCESS;
}

NTSTATUS ObReferenceObjectByHandle(HANDLE Handle, ACCESS_MASK DesiredAccess, POBJECT_TYPE ObjectType, KPROCESSOR_MODE AccessMode, PVOID *Object,
                                   POBJECT_HANDLE_INFORMATION HandleInformation)
{
    KZ_CALL();
    (void)DesiredAccess, (void)ObjectType, (void)AccessMode, (void)HandleInformation;
    *Object = kz_object_of(Handle);
    if (*Object) {
        kz_take_object(*Object, false, __func__);
        return STATUS_SUCCESS;
    }
    kz_tell(KZM_OWN_IO, __func__, "no object stands behind a handle here: it answers STATUS_INVALID_HANDLE");
    return STATUS_INVALID_HANDLE;
}

/* ---- Handles of them: of a section for a program, of a process or a thread as far as the callbacks of handles grant it. */
static POBJECT_TYPE type_of(PVOID object)
{
    return kz_is_process(object) ? *PsProcessType : kz_is_thread(object) ? *PsThreadType : NULL;
}

NTSTATUS ObOpenObjectByPointer(PVOID Object, ULONG HandleAttributes, PVOID PassedAccessState, ACCESS_MASK DesiredAccess, POBJECT_TYPE ObjectType,
                               KPROCESSOR_MODE AccessMode, PHANDLE Handle)
{
    KZ_CALL();
    (void)PassedAccessState, (void)AccessMode;
    POBJECT_TYPE type = type_of(Object);
    *Handle = NULL;
    if (type && ObjectType && ObjectType != type)
        return STATUS_OBJECT_TYPE_MISMATCH;
    if (type)
        kz_grant_handle(Object, type, DesiredAccess, false, (HandleAttributes & OBJ_KERNEL_HANDLE) != 0);
    if (type || kz_is_section(Object)) {
        *Handle = kz_open_handle(Object, type == *PsProcessType ? "a process" : type ? "a thread" : "a section", HandleAttributes);
        return STATUS_SUCCESS;
    }
    kz_tell(KZM_SECURITY, __func__, "of what is no section, process or thread it answers STATUS_NOT_SUPPORTED");
    return STATUS_NOT_SUPPORTED;
}

NTSTATUS ZwOpenProcess(PHANDLE ProcessHandle, ACCESS_MASK DesiredAccess, POBJECT_ATTRIBUTES ObjectAttributes, PCLIENT_ID ClientId)
{
    KZ_CALL();
    PEPROCESS process = ClientId ? kz_process_there(HandleToULong(ClientId->UniqueProcess)) : NULL;
    *ProcessHandle = NULL;
    if (!process)
        return STATUS_INVALID_CID;
    ULONG attributes = ObjectAttributes ? ObjectAttributes->Attributes : 0;
    kz_grant_handle(process, *PsProcessType, DesiredAccess, false, (attributes & OBJ_KERNEL_HANDLE) != 0);
    *ProcessHandle = kz_open_handle(process, "a process", attributes);
    return STATUS_SUCCESS;
}

NTSTATUS PsLookupProcessByProcessId(HANDLE ProcessId, PEPROCESS *Process)
{
    KZ_CALL();
    *Process = kz_process_there(HandleToULong(ProcessId));
    if (!*Process)
        return STATUS_INVALID_CID;
    kz_take_object(*Process, false, __func__);
    return STATUS_SUCCESS;
}

NTSTATUS PsLookupThreadByThreadId(HANDLE ThreadId, PETHREAD *Thread)
{
    KZ_CALL();
    *Thread = kz_thread_there(HandleToULong(ThreadId));
    if (!*Thread)
        return STATUS_INVALID_CID;
    kz_take_object(*Thread, false, __func__);
    return STATUS_SUCCESS;
}

NTSTATUS FltObjectReference(PVOID FltObject)
{
    KZ_CALL();
    if (!kz_may_use(__func__, FltObject))
        return STATUS_FLT_DELETING_OBJECT;
    kz_take_object(FltObject, true, __func__);
    return STATUS_SUCCESS;
}

VOID FltObjectDereference(PVOID FltObject)
{
    KZ_CALL();
    kz_let_go_object(FltObject, __func__);
}
