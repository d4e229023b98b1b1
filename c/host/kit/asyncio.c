/* What a filter asks of a file by callback data of its own, and doesn't wait for: a control code may stay in the file system until something happens. */
#include "kit/asyncio.h"

#include "core/client.h"
#include "core/memory.h"
#include "core/op.h"
#include "core/state.h"
#include "manager/below.h"
#include "manager/hand.h"
#include "manager/instance.h"
#include "manager/opaque.h"
#include "kit/io.h"

#include <stdlib.h>

typedef struct {
    PFLT_CALLBACK_DATA data;
    PFLT_COMPLETED_ASYNC_IO_CALLBACK routine;
    PVOID context;
    PFLT_FILTER filter;
    PFLT_INSTANCE instance;
} Later;

static void call_routine(const Later *later)
{
    uint8_t worker = kz_helper();
    KzPlace before = kz_enter(KZ_IN_COMPLETION, worker, later->filter, later->instance, NULL, NULL);
    kz_call_at(DISPATCH_LEVEL); /* as the kit may have it */
    unsigned depth = kz_let_driver("completion", later->routine);
    KZ_CALL_DRIVER(later->routine, later->data, later->context);
    kz_driver_returned(depth, "completion returns");
    kz_keep_rest(NULL);
    kz_leave(before);
    kz_helped(worker);
}

static void end(void *given, NTSTATUS status, uint64_t information, const uint8_t *bytes, size_t length)
{
    Later *later = given;
    const FLT_PARAMETERS *now = &later->data->Iopb->Parameters;
    size_t room = now->FileSystemControl.Common.OutputBufferLength;
    if (length && now->FileSystemControl.Buffered.SystemBuffer)
        memcpy(now->FileSystemControl.Buffered.SystemBuffer, bytes, length < room ? length : room);
    later->data->IoStatus = (IO_STATUS_BLOCK){.Status = status, .Information = information};
    call_routine(later);
    free(later);
}

NTSTATUS kz_control_later(PFLT_CALLBACK_DATA data, PFLT_COMPLETED_ASYNC_IO_CALLBACK routine, PVOID context, const char *call)
{
    PFLT_INSTANCE instance = data->Iopb->TargetInstance;
    const FLT_PARAMETERS *now = &data->Iopb->Parameters;
    KzFile *file = kz_may_use(call, instance) ? kz_opened_file(data->Iopb->TargetFileObject, call) : NULL;
    if (!file)
        return STATUS_INVALID_PARAMETER;
    ULONG code = now->FileSystemControl.Common.FsControlCode;
    const KzAsked asked = {.major = IRP_MJ_FILE_SYSTEM_CONTROL, .code = code, .input = now->FileSystemControl.Buffered.SystemBuffer, .input_size = now->FileSystemControl.Common.InputBufferLength,
                           .room = now->FileSystemControl.Common.OutputBufferLength, .irp_flags = code & 3 ? 0 : IRP_BUFFERED_IO};
    Later *later = kz_memory(sizeof *later);
    *later = (Later){data, routine, context, kz_me->place.filter, instance};
    const KzOwn own = {.initiator = instance, .opaque = &asked, .data = data, .done = end, .given = later};
    KzAnswer answer = kz_below_file(&own, file, kz_opaque_event(&asked, (KazdrinEvent){.event = KZE_OTHER}), "", 0);
    if (!answer.reply.held)
        end(later, kz_status_of(answer), answer.reply.information, kz_me->room, answer.length);
    return STATUS_PENDING;
}
