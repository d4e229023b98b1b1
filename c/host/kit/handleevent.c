/* Callbacks of handles: before one of a process or a thread is opened each may take access away, from the highest altitude down; after it each is told what was granted. */
#include "kit/handleevent.h"

#include "core/client.h"
#include "core/memory.h"
#include "lib/letters.h"
#include "kit/routine.h"

#include <stdlib.h>

/* A registration, as it was made. */
typedef struct {
    PVOID context;
    USHORT count;
    OB_OPERATION_REGISTRATION operations[];
} Registration;

/* There is one version. */
USHORT ObGetFilterVersion(VOID)
{
    return OB_FLT_REGISTRATION_VERSION;
}

static bool is_right(const OB_OPERATION_REGISTRATION *one)
{
    const OB_OPERATION known = OB_OPERATION_HANDLE_CREATE | OB_OPERATION_HANDLE_DUPLICATE;
    bool has_type = one->ObjectType && (*one->ObjectType == *PsProcessType || *one->ObjectType == *PsThreadType);
    return has_type && one->Operations && !(one->Operations & ~known) && (one->PreOperation || one->PostOperation);
}

NTSTATUS ObRegisterCallbacks(POB_CALLBACK_REGISTRATION CallbackRegistration, PVOID *RegistrationHandle)
{
    KZ_CALL();
    POB_CALLBACK_REGISTRATION asked = CallbackRegistration;
    KzRoutine *made, wanted = {.kind = KZR_OBJECT};
    *RegistrationHandle = NULL;
    bool are_right = (asked->Version & 0xff00) == OB_FLT_REGISTRATION_VERSION_0100 && asked->OperationRegistrationCount;
    for (USHORT at = 0; are_right && at < asked->OperationRegistrationCount; at++)
        are_right = is_right(&asked->OperationRegistration[at]);
    if (!are_right)
        return STATUS_INVALID_PARAMETER;
    size_t size = asked->OperationRegistrationCount * sizeof *asked->OperationRegistration;
    Registration *kept = kz_memory(sizeof *kept + size);
    kept->context = asked->RegistrationContext;
    kept->count = asked->OperationRegistrationCount;
    memcpy(kept->operations, asked->OperationRegistration, size);
    wanted.routine = wanted.context = kept;
    kz_narrow(wanted.altitude, sizeof wanted.altitude, &asked->Altitude);
    NTSTATUS status = kz_add_routine(&wanted, __func__, &made);
    if (NT_SUCCESS(status))
        *RegistrationHandle = (PVOID)(ULONG_PTR)made->number;
    else
        free(kept);
    return status;
}

VOID ObUnRegisterCallbacks(PVOID RegistrationHandle)
{
    KZ_CALL();
    const KzCallees callees = {{(ULONG_PTR)RegistrationHandle}, 1};
    KzRoutine *gone = kz_callee(&callees, 0);
    if (gone && gone->kind == KZR_OBJECT)
        kz_take_off_routine(gone);
}

/* ---- One event. */
typedef struct {
    PVOID object;
    POBJECT_TYPE type;
    OB_OPERATION operation;
    ACCESS_MASK asked, granted;
    bool is_of_kernel;
    KzCallees callees;
    PVOID contexts[KZ_MOST_ROUTINES];
} Event;

static const OB_OPERATION_REGISTRATION *wants(const KzRoutine *one, const Event *event)
{
    const Registration *kept = one->context;
    for (USHORT at = 0; at < kept->count; at++)
        if (*kept->operations[at].ObjectType == event->type && kept->operations[at].Operations & event->operation)
            return &kept->operations[at];
    return NULL;
}

/* What wasn't asked for isn't granted, whatever a callback puts there. */
static void ask(Event *event, unsigned at)
{
    KzRoutine *one = kz_callee(&event->callees, at);
    const OB_OPERATION_REGISTRATION *wanted = one ? wants(one, event) : NULL;
    if (!wanted || !wanted->PreOperation)
        return;
    OB_PRE_OPERATION_PARAMETERS parameters = {.DuplicateHandleInformation = {.DesiredAccess = event->granted, .OriginalDesiredAccess = event->asked}};
    OB_PRE_OPERATION_INFORMATION before = {.Operation = event->operation, .Object = event->object, .ObjectType = event->type, .Parameters = &parameters};
    POB_PRE_OPERATION_CALLBACK function = wanted->PreOperation;
    PVOID context = ((Registration *)one->context)->context;
    before.KernelHandle = event->is_of_kernel;
    if (event->operation == OB_OPERATION_HANDLE_DUPLICATE)
        parameters.DuplicateHandleInformation.SourceProcess = parameters.DuplicateHandleInformation.TargetProcess = PsGetCurrentProcess();
    KzRoutineCall call = kz_begin_routine(one, function);
    KZ_CALL_DRIVER(function, context, &before);
    kz_end_routine(&call);
    event->contexts[at] = before.CallContext;
    event->granted = parameters.CreateHandleInformation.DesiredAccess & event->asked;
}

static void tell(const Event *event, unsigned at)
{
    KzRoutine *one = kz_callee(&event->callees, at);
    const OB_OPERATION_REGISTRATION *wanted = one ? wants(one, event) : NULL;
    if (!wanted || !wanted->PostOperation)
        return;
    OB_POST_OPERATION_PARAMETERS parameters = {.CreateHandleInformation.GrantedAccess = event->granted};
    OB_POST_OPERATION_INFORMATION after = {.Operation = event->operation, .Object = event->object, .ObjectType = event->type, .CallContext = event->contexts[at],
                                           .ReturnStatus = STATUS_SUCCESS, .Parameters = &parameters};
    POB_POST_OPERATION_CALLBACK function = wanted->PostOperation;
    PVOID context = ((Registration *)one->context)->context;
    after.KernelHandle = event->is_of_kernel;
    KzRoutineCall call = kz_begin_routine(one, function);
    KZ_CALL_DRIVER(function, context, &after);
    kz_end_routine(&call);
}

ACCESS_MASK kz_grant_handle(PVOID object, POBJECT_TYPE type, ACCESS_MASK asked, bool is_duplicate, bool is_of_kernel)
{
    Event event = {.object = object, .type = type, .operation = is_duplicate ? OB_OPERATION_HANDLE_DUPLICATE : OB_OPERATION_HANDLE_CREATE, .asked = asked, .granted = asked, .is_of_kernel = is_of_kernel};
    kz_callees(KZR_OBJECT, KZR_OBJECT, &event.callees);
    for (unsigned at = 0; at < 2 * event.callees.count; at++)
        if (at < event.callees.count)
            ask(&event, at);
        else
            tell(&event, 2 * event.callees.count - 1 - at);
    return event.granted;
}
