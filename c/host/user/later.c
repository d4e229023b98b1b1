/* What a program asks of a file that may be over later: locks, and control codes that wait. */
#include "user/later.h"

#include "core/client.h"
#include "core/memory.h"
#include "manager/below.h"
#include "manager/disposition.h"
#include "manager/opaque.h"
#include "kit/cancel.h"
#include "user/completion.h"
#include "user/error.h"
#include "user/object.h"

#include <stdlib.h>

typedef struct {
    const KzObject *object;
    KzAnswerTo to;
    NTSTATUS status;
    bool is_over;
} Later;

static void put(const KzAnswerTo *to, uint64_t information, const uint8_t *bytes, size_t length)
{
    if (to->out && length)
        memcpy(to->out, bytes, length < to->room ? length : to->room);
    if (to->done)
        *to->done = (uint32_t)information;
}

static void end(void *given, NTSTATUS status, uint64_t information, const uint8_t *bytes, size_t length)
{
    Later *one = given;
    KzObject *object = kz_open_object(one->object);
    one->status = status;
    one->is_over = true;
    kz.changes++;
    if (object || !one->to.overlapped)
        put(&one->to, information, bytes, length);
    if (object && one->to.overlapped)
        kz_complete(object, one->to.overlapped, (uint32_t)information, status);
    if (one->to.overlapped)
        free(one);
}

static bool is_over(void *one)
{
    return ((Later *)one)->is_over;
}

/* Its thread waits. */
static uint32_t wait_for(Later *one, const char *call)
{
    if (!kz_user_waits(is_over, one, UINT32_MAX, call))
        return 995; /* ERROR_OPERATION_ABORTED: the program ends, and what is over then is nobody's */
    NTSTATUS status = one->status;
    free(one);
    return NT_SUCCESS(status) ? 0 : kz_win32_of(status);
}

uint32_t kz_ask_later(KzObject *object, const KzAsked *asked, KzAnswerTo to, const char *call)
{
    bool waits = !to.overlapped || object->file->object.Flags & FO_SYNCHRONOUS_IO;
    KzOverlapped *overlapped = to.overlapped;
    Later *one = kz_memory(sizeof *one);
    if (overlapped)
        kz_begin_overlapped(object, overlapped);
    to.overlapped = waits ? NULL : overlapped;
    to.done = waits ? to.done : NULL; /* it may be gone by then */
    *one = (Later){.object = object, .to = to};
    const KzOwn own = {.is_user = true, .opaque = asked, .done = end, .given = one};
    KzAnswer answer = {.reply.status = KZS_ACCESS_DENIED};
    kz_me->has_pended = false;
    if (kz_is_granted(object->file, &(KazdrinEvent){.event = KZE_OTHER}, asked))
        answer = kz_below(&own, object->file, kz_opaque_event(asked, (KazdrinEvent){.event = KZE_OTHER, .handle = object->file->handle}), "", 0);
    if (answer.reply.held)
        return waits ? wait_for(one, call) : KZ_ERROR_IO_PENDING;
    NTSTATUS status = kz_status_of(answer);
    put(&one->to, answer.reply.information, kz_me->room, answer.length);
    free(one);
    if (overlapped)
        kz_end_overlapped(object, overlapped, (uint32_t)answer.reply.information, status);
    return NT_SUCCESS(status) ? 0 : kz_win32_of(status);
}

static KzOp *next_of(const KzObject *object, const KzOverlapped *overlapped)
{
    for (KzOp *op = kz.ops; op; op = op->next) {
        const Later *one = op->own.done == end ? op->own.given : NULL;
        if (one && one->object == object && (!overlapped || one->to.overlapped == overlapped) && !op->cancel.is_asked)
            return op;
    }
    return NULL;
}

void kz_cancel_later(const KzObject *object, const KzOverlapped *overlapped)
{
    for (KzOp *op = next_of(object, overlapped); op; op = next_of(object, overlapped))
        kz_cancel_op(op);
}
