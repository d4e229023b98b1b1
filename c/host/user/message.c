/* Messages between a program and its filter. */
#include "user/message.h"

#include "core/client.h"
#include "core/memory.h"
#include "lib/letters.h"
#include "kit/port.h"
#include "user/completion.h"
#include "user/error.h"
#include "user/object.h"
#include "user/program.h"

#include <stdlib.h>

enum { HEADER = 16 }; /* of a message, and of a reply: a number of 32 bits, and one of 64 behind it */
#define HRESULT_OF(error) ((int32_t)(0x80070000 | (error)))
#define NO_WAITER_FOR_REPLY ((int32_t)0x801f0020)

static void serve_messages(PFLT_PORT port);

int32_t FilterConnectCommunicationPort(const WCHAR *name, uint32_t options, const void *context, uint16_t size, const void *attributes, void **port);
int32_t FilterConnectCommunicationPort(const WCHAR *name, uint32_t options, const void *context, uint16_t size, const void *attributes, void **port)
{
    (void)options, (void)attributes;
    char text[128];
    NTSTATUS status;
    *port = (void *)(intptr_t)-1;
    {
        KZ_CALL();
        PFLT_PORT made = NULL;
        UNICODE_STRING wide;
        RtlInitUnicodeString(&wide, name);
        kz_narrow(text, sizeof text, &wide);
        status = kz_connect_port(text, context, context ? size : 0, serve_messages, &made);
        if (NT_SUCCESS(status)) {
            KzObject *object = kz_new_object(KZU_PORT);
            object->port = made;
            *port = object;
        }
    }
    kz_go_on_or_end();
    return kz_hresult_of(status);
}

int32_t FilterSendMessage(void *handle, void *in, uint32_t in_size, void *out, uint32_t out_size, uint32_t *returned);
int32_t FilterSendMessage(void *handle, void *in, uint32_t in_size, void *out, uint32_t out_size, uint32_t *returned)
{
    int32_t answer = HRESULT_OF(KZ_ERROR_INVALID_HANDLE);
    *returned = 0;
    {
        KZ_CALL();
        KzObject *object = kz_object(handle, KZU_PORT);
        if (object)
            answer = kz_hresult_of(kz_send_to_filter(object->port, in, in_size, out, out_size, returned));
    }
    kz_go_on_or_end();
    return answer;
}

/* ---- Getting. The header says how long a reply may be, and which message it is. */
static NTSTATUS give(KzPortMessage *message, uint8_t *room, uint32_t size, uint32_t *bytes)
{
    uint32_t length = HEADER + message->length, reply = message->reply ? message->room + HEADER : 0;
    *bytes = 0;
    if (size < length)
        return STATUS_BUFFER_TOO_SMALL;
    memset(room, 0, HEADER);
    memcpy(room, &reply, sizeof reply);
    memcpy(room + 8, &message->id, sizeof message->id);
    memcpy(room + HEADER, message->bytes, message->length);
    kz_take_message(message);
    *bytes = length;
    return STATUS_SUCCESS;
}

static bool has_come(void *port)
{
    return kz_is_port_over(port) || kz_next_message(port);
}

/* Another thread may close the handle meanwhile; the port stays. */
static NTSTATUS get(PFLT_PORT port, uint8_t *room, uint32_t size)
{
    uint32_t bytes;
    if (!kz_user_waits(has_come, port, UINT32_MAX, "FilterGetMessage"))
        return STATUS_CANCELLED;
    KzPortMessage *message = kz_is_port_over(port) ? NULL : kz_next_message(port);
    if (message)
        message->taker = kz_me;
    return message ? give(message, room, size, &bytes) : STATUS_PORT_DISCONNECTED;
}

static void ask(KzObject *object, uint8_t *room, uint32_t size, KzOverlapped *overlapped)
{
    KzAskedFor *made = kz_memory(sizeof *made), **at = &object->asked;
    *made = (KzAskedFor){NULL, room, size, overlapped};
    kz_begin_overlapped(object, overlapped);
    while (*at)
        at = &(*at)->next;
    *at = made;
    kz_scheduler->touch(object, 0, KZT_GIVES);
}

static KzAskedFor *take_first(KzObject *object)
{
    KzAskedFor *one = object->asked;
    object->asked = one->next;
    kz_scheduler->touch(object, 0, KZT_TAKES);
    return one;
}

static void serve(KzObject *object)
{
    while (object->asked && has_come(object->port)) {
        KzAskedFor *one = take_first(object);
        uint32_t bytes = 0;
        KzPortMessage *message = kz_is_port_over(object->port) ? NULL : kz_next_message(object->port);
        NTSTATUS status = message ? give(message, one->room, one->size, &bytes) : STATUS_PORT_DISCONNECTED;
        kz_complete(object, one->overlapped, bytes, status);
        free(one);
    }
}

static void serve_messages(PFLT_PORT port)
{
    for (KzProcess *process = kz_processes(); process; process = process->next)
        for (KzObject *one = process->objects; one; one = one->next)
            if (one->kind == KZU_PORT && one->port == port)
                serve(one);
}

void kz_abort_messages(KzObject *object, NTSTATUS status)
{
    while (object->asked) {
        KzAskedFor *one = take_first(object);
        kz_complete(object, one->overlapped, 0, status);
        free(one);
    }
}

int32_t FilterGetMessage(void *handle, void *message, uint32_t size, KzOverlapped *overlapped);
int32_t FilterGetMessage(void *handle, void *message, uint32_t size, KzOverlapped *overlapped)
{
    int32_t answer = HRESULT_OF(KZ_ERROR_INVALID_HANDLE);
    {
        KZ_CALL();
        KzObject *object = kz_object(handle, KZU_PORT);
        if (object && overlapped && !kz_is_port_over(object->port)) {
            ask(object, message, size, overlapped);
            serve(object);
            answer = HRESULT_OF(KZ_ERROR_IO_PENDING);
        } else if (object && !overlapped) {
            answer = kz_hresult_of(get(object->port, message, size));
        }
    }
    kz_go_on_or_end();
    return answer;
}

int32_t FilterReplyMessage(void *handle, const void *reply, uint32_t size);
int32_t FilterReplyMessage(void *handle, const void *reply, uint32_t size)
{
    int32_t answer = HRESULT_OF(KZ_ERROR_INVALID_HANDLE);
    {
        KZ_CALL();
        KzObject *object = kz_object(handle, KZU_PORT);
        NTSTATUS status;
        uint64_t id;
        if (object && size < HEADER) {
            answer = HRESULT_OF(87);
        } else if (object && !kz_is_port_over(object->port)) {
            memcpy(&status, reply, sizeof status);
            memcpy(&id, (const uint8_t *)reply + 8, sizeof id);
            bool is_waited_for = kz_reply_message(object->port, id, status, (const uint8_t *)reply + HEADER, size - HEADER);
            answer = is_waited_for ? 0 : NO_WAITER_FOR_REPLY;
        }
    }
    kz_go_on_or_end();
    return answer;
}
