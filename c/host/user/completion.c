/* Operations that complete later: their overlapped structures, events and completion ports. */
#include "user/completion.h"

#include "core/client.h"
#include "core/memory.h"
#include "user/error.h"
#include "user/later.h"
#include "user/message.h"
#include "user/object.h"
#include "user/program.h"

#include <stdlib.h>

static void post(KzObject *port, KzPacket packet)
{
    KzPacket *made = kz_memory(sizeof *made), **at = &port->packets;
    *made = packet;
    while (*at)
        at = &(*at)->next;
    *at = made;
    kz.changes++;
    kz_scheduler->touch(port, 0, KZT_GIVES);
}

static void set_event(KzProcess *process, const void *handle, bool is_set)
{
    for (KzObject *one = process->objects; one; one = one->next)
        if (one == handle && one->kind == KZU_EVENT) {
            one->count = is_set;
            kz_scheduler->touch(one, 0, KZT_GIVES);
        }
}

void kz_begin_overlapped(KzObject *object, KzOverlapped *overlapped)
{
    overlapped->status = STATUS_PENDING;
    set_event(object->process, overlapped->event, false);
}

void kz_complete(KzObject *object, KzOverlapped *overlapped, uint32_t bytes, NTSTATUS status)
{
    overlapped->status = (uintptr_t)(uint32_t)status;
    overlapped->bytes = bytes;
    kz.changes++;
    set_event(object->process, overlapped->event, true);
    if (object->completion)
        post(object->completion, (KzPacket){.bytes = bytes, .error = kz_win32_of(status), .key = object->key, .overlapped = overlapped});
}

void kz_end_overlapped(KzObject *object, KzOverlapped *overlapped, uint32_t bytes, NTSTATUS status)
{
    if (!NT_ERROR(status) || kz_me->has_pended)
        kz_complete(object, overlapped, bytes, status);
}

void *CreateIoCompletionPort(void *file, void *existing, uintptr_t key, uint32_t threads);
void *CreateIoCompletionPort(void *file, void *existing, uintptr_t key, uint32_t threads)
{
    (void)threads;
    KZ_CALL();
    KzObject *port = existing ? kz_object(existing, KZU_COMPLETION) : kz_new_object(KZU_COMPLETION);
    if (!port || file == (void *)(intptr_t)-1)
        return port;
    KzObject *object = kz_any_object(file);
    if (!object)
        return NULL;
    object->completion = port;
    object->key = key;
    return port;
}

static bool has_packet(void *port)
{
    return ((KzObject *)port)->packets != NULL;
}

/* One whose operation failed is taken too: then the answer is no, with the error. */
static int take(KzObject *port, uint32_t *bytes, uintptr_t *key, void **overlapped, uint32_t milliseconds)
{
    *overlapped = NULL;
    if (!port)
        return 0;
    if (!kz_user_waits(has_packet, port, milliseconds, "GetQueuedCompletionStatus"))
        return kz_failed(KZ_WAIT_TIMEOUT);
    KzPacket *one = port->packets;
    port->packets = one->next;
    kz_scheduler->touch(port, 0, KZT_TAKES);
    *bytes = one->bytes;
    *key = one->key;
    *overlapped = one->overlapped;
    uint32_t error = one->error;
    free(one);
    return error ? kz_failed(error) : 1;
}

int GetQueuedCompletionStatus(void *handle, uint32_t *bytes, uintptr_t *key, void **overlapped, uint32_t milliseconds);
int GetQueuedCompletionStatus(void *handle, uint32_t *bytes, uintptr_t *key, void **overlapped, uint32_t milliseconds)
{
    int is_there;
    {
        KZ_CALL();
        is_there = take(kz_object(handle, KZU_COMPLETION), bytes, key, overlapped, milliseconds);
    }
    kz_go_on_or_end();
    return is_there;
}

int PostQueuedCompletionStatus(void *handle, uint32_t bytes, uintptr_t key, void *overlapped);
int PostQueuedCompletionStatus(void *handle, uint32_t bytes, uintptr_t key, void *overlapped)
{
    KZ_CALL();
    KzObject *port = kz_object(handle, KZU_COMPLETION);
    if (port)
        post(port, (KzPacket){.bytes = bytes, .key = key, .overlapped = overlapped});
    return port != NULL;
}

static bool is_completed(void *overlapped)
{
    return (NTSTATUS)((KzOverlapped *)overlapped)->status != STATUS_PENDING;
}

int GetOverlappedResult(void *handle, KzOverlapped *overlapped, uint32_t *bytes, int waits);
int GetOverlappedResult(void *handle, KzOverlapped *overlapped, uint32_t *bytes, int waits)
{
    int is_right = 0;
    {
        KZ_CALL();
        bool is_known = kz_any_object(handle) != NULL;
        if (is_known && !kz_user_waits(is_completed, overlapped, waits ? UINT32_MAX : 0, "GetOverlappedResult")) {
            kz_failed(996); /* ERROR_IO_INCOMPLETE */
        } else if (is_known) {
            uint32_t error = kz_win32_of((NTSTATUS)overlapped->status);
            *bytes = (uint32_t)overlapped->bytes;
            is_right = error ? kz_failed(error) : 1;
        }
    }
    kz_go_on_or_end();
    return is_right;
}

int CancelIoEx(void *handle, KzOverlapped *overlapped);
int CancelIoEx(void *handle, KzOverlapped *overlapped)
{
    KZ_CALL();
    KzObject *object = kz_any_object(handle);
    if (object)
        kz_abort_messages(object, STATUS_CANCELLED);
    if (object && object->kind == KZU_FILE)
        kz_cancel_later(object, overlapped);
    return object != NULL;
}

int CancelIo(void *handle);
int CancelIo(void *handle)
{
    return CancelIoEx(handle, NULL);
}
