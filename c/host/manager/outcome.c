/* With what the file system's call returned, for the instances that asked in their preoperations: STATUS_PENDING where it waits, and else behind the postoperations. */
#include "manager/outcome.h"

#include "core/client.h"
#include "core/op.h"
#include "core/place.h"
#include "core/state.h"
#include "manager/context.h"
#include "manager/hand.h"
#include "manager/instance.h"
#include "manager/pre.h"

static void call(KzOp *op, const KzWantsStatus *one, NTSTATUS status)
{
    FLT_RELATED_OBJECTS objects = kz_objects_of(one->instance, op);
    FLT_IO_PARAMETER_BLOCK parameters = one->parameters;
    PFLT_GET_OPERATION_STATUS_CALLBACK function = (PFLT_GET_OPERATION_STATUS_CALLBACK)(uintptr_t)one->function;
    uint8_t worker = kz_helper();
    KzPlace before = kz_enter(KZ_IN_COMPLETION, worker, one->instance->filter, one->instance, op, NULL);
    kz_call_at(PASSIVE_LEVEL);
    unsigned depth = kz_let_driver("status routine", function);
    KZ_CALL_DRIVER(function, &objects, &parameters, status, one->context);
    kz_driver_returned(depth, "status routine returns");
    kz_keep_rest(NULL);
    kz_leave(before);
    kz_helped(worker);
    kz_clean_up();
}

void kz_tell_outcome(KzOp *op, NTSTATUS status)
{
    const KzWantsStatus *one = op->wants;
    op->wants = NULL;
    for (; one; one = one->next)
        if (kz_phase(one->instance) == KZP_INSTANCE_ATTACHED)
            call(op, one, status);
}
