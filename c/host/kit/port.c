/* Ports. A program's thread calls the filter's callbacks by itself, as in the kit; a message of the filter's waits until a program's thread has got it, or has answered it. */
#include "kit/port.h"

#include "core/access.h"
#include "core/beside.h"
#include "core/client.h"
#include "core/held.h"
#include "core/memory.h"
#include "core/module.h"
#include "core/piece.h"
#include "core/place.h"
#include "core/state.h"
#include "core/told.h"
#include "core/unwritten.h"
#include "lib/letters.h"
#include "manager/context.h"
#include "manager/hand.h"
#include "manager/filter.h"

#include <stdlib.h>

struct _FLT_PORT {
    PFLT_PORT next;
    PFLT_FILTER filter;
    char name[128]; /* of the one that programs connect to */
    PFLT_PORT server;
    PVOID cookie;
    PFLT_CONNECT_NOTIFY connect;
    PFLT_DISCONNECT_NOTIFY disconnect;
    PFLT_MESSAGE_NOTIFY message;
    LONG most, connections;
    unsigned running; /* connect callbacks of the one that programs connect to, or message and disconnect callbacks of a connection */
    bool is_ending; /* its filter is unloaded: no message comes any more */
    bool is_refused, is_closed, is_disconnected; /* of a connection: by the connect callback, by the filter, by the program or the filter's end */
    KzPortMessage *messages;
    void (*serve)(PFLT_PORT port); /* of a connection: its program is told that a message came, or that it is over */
    KzPlace place; /* where it was made */
    uint64_t process; /* of a connection: its program's */
};

struct KzPortState {
    PFLT_PORT servers, connections;
    uint64_t last; /* message */
};

/* Descriptors aren't looked into: whoever connects may. */
NTSTATUS FltBuildDefaultSecurityDescriptor(PSECURITY_DESCRIPTOR *SecurityDescriptor, ACCESS_MASK DesiredAccess)
{
    KZ_INSIDE_ALONE();
    kz_gives(SecurityDescriptor);
    (void)DesiredAccess;
    *SecurityDescriptor = kz_take_memory(KZK_POOL, sizeof(ULONG), 0, KZ_DESCRIPTOR_TAG);
    return *SecurityDescriptor ? STATUS_SUCCESS : STATUS_INSUFFICIENT_RESOURCES;
}

VOID FltFreeSecurityDescriptor(PSECURITY_DESCRIPTOR SecurityDescriptor)
{
    KZ_INSIDE_ALONE();
    kz_uses_object(SecurityDescriptor, KZU_WRITES);
    KzPiece *piece = kz_piece_of(SecurityDescriptor);
    if (piece && piece->kind == KZK_POOL && piece->tag == KZ_DESCRIPTOR_TAG)
        kz_give_back(SecurityDescriptor);
    else
        kz_tell(KZM_NO_FILTER_OBJECT, __func__, "no security descriptor of FltBuildDefaultSecurityDescriptor (freed twice?)");
}

static PFLT_PORT server_of(const char *name)
{
    PFLT_PORT one = kz.port->servers;
    while (one && KzStricmp(one->name, name) != 0)
        one = one->next;
    return one;
}

NTSTATUS FltCreateCommunicationPort(PFLT_FILTER Filter, PFLT_PORT *ServerPort, POBJECT_ATTRIBUTES ObjectAttributes, PVOID ServerPortCookie,
                                    PFLT_CONNECT_NOTIFY ConnectNotifyCallback, PFLT_DISCONNECT_NOTIFY DisconnectNotifyCallback,
                                    PFLT_MESSAGE_NOTIFY MessageNotifyCallback, LONG MaxConnections)
{
    KZ_CALL();
    char name[128];
    *ServerPort = NULL;
    if (!kz_is_filter(Filter)) {
        kz_tell(KZM_NO_FILTER_OBJECT, __func__, "no filter");
        return STATUS_INVALID_PARAMETER;
    }
    if (!ObjectAttributes || !ObjectAttributes->ObjectName || !ConnectNotifyCallback || !DisconnectNotifyCallback || MaxConnections < 1)
        return STATUS_INVALID_PARAMETER;
    kz_narrow(name, sizeof name, ObjectAttributes->ObjectName);
    if (server_of(name))
        return STATUS_OBJECT_NAME_COLLISION;
    if (kz_refuses(KZ_CHOICE_POOL, __func__))
        return STATUS_INSUFFICIENT_RESOURCES;
    PFLT_PORT made = kz_memory(sizeof *made);
    *made = (struct _FLT_PORT){.next = kz.port->servers,
                               .filter = Filter,
                               .cookie = ServerPortCookie,
                               .connect = ConnectNotifyCallback,
                               .disconnect = DisconnectNotifyCallback,
                               .message = MessageNotifyCallback,
                               .most = MaxConnections,
                               .place = kz_me->place};
    memcpy(made->name, name, sizeof name);
    kz.port->servers = made;
    *ServerPort = made;
    kz_scheduler->touch(made, 0, KZT_GIVES);
    return STATUS_SUCCESS;
}

static bool is_quiet(void *port)
{
    return ((PFLT_PORT)port)->running == 0;
}

/* Nobody connects from here on, and who was about to has; connections that are there stay. */
VOID FltCloseCommunicationPort(PFLT_PORT ServerPort)
{
    KZ_CALL();
    for (PFLT_PORT *at = &kz.port->servers; *at; at = &(*at)->next)
        if (*at == ServerPort) {
            *at = ServerPort->next;
            kz_wait_for(is_quiet, ServerPort, -1, "a connect callback to return");
            kz_scheduler->touch(ServerPort, 0, KZT_TAKES);
            for (PFLT_PORT one = kz.port->connections; one; one = one->next)
                one->server = one->server == ServerPort ? NULL : one->server;
            free(ServerPort);
            return;
        }
    kz_tell(KZM_NO_HANDLE, __func__, "no port (closed twice?)");
}

/* ---- Callbacks of a port, by the thread that asks. */
typedef struct {
    KzPlace before;
    uint8_t worker;
    unsigned depth;
} Inside;

static Inside go_in(PFLT_FILTER filter, const char *name, PVOID function)
{
    Inside one = {.worker = kz_helper()};
    one.before = kz_enter(KZ_IN_PORT, one.worker, filter, NULL, NULL, NULL);
    kz_call_at(PASSIVE_LEVEL);
    one.depth = kz_let_driver(name, function);
    return one;
}

static void come_back(Inside one, const char *name)
{
    kz_driver_returned(one.depth, name);
    kz_keep_rest(NULL);
    kz_leave(one.before);
    kz_helped(one.worker);
    kz_clean_up();
}

/* What a program gives with its connection, and its own buffers: with an end that is seen. */
static void *captured_of(const void *context, USHORT size)
{
    void *made = size ? kz_take_memory(KZK_INPUT, size, 0, 0) : NULL;
    if (!made)
        return NULL;
    kz_piece_of(made)->subject = "ConnectionContext";
    return memcpy(made, context, size);
}

NTSTATUS kz_connect_port(const char *name, const void *context, USHORT size, void (*serve)(PFLT_PORT port), PFLT_PORT *port)
{
    KZ_CALL();
    PFLT_PORT server = server_of(name), made;
    if (!server)
        return STATUS_OBJECT_NAME_NOT_FOUND;
    if (server->connections >= server->most)
        return STATUS_CONNECTION_COUNT_LIMIT;
    made = kz_memory(sizeof *made);
    *made = (struct _FLT_PORT){.next = kz.port->connections, .filter = server->filter, .server = server, .disconnect = server->disconnect, .message = server->message, .serve = serve, .process = kz_me->process};
    kz.port->connections = made;
    server->connections++;
    void *captured = captured_of(context, size);
    kz_scheduler->touch(server, 0, KZT_TAKES);
    PFLT_CONNECT_NOTIFY connect = server->connect;
    PVOID cookie = server->cookie;
    server->running++;
    Inside inside = go_in(made->filter, "connect", (PVOID)connect);
    made->place = kz_me->place;
    NTSTATUS status = KZ_CALL_DRIVER(connect, made, cookie, captured, size, &made->cookie);
    come_back(inside, "connect returns");
    server->running--;
    kz.changes++;
    kz_scheduler->touch(server, 0, KZT_GIVES);
    kz_give_back(captured);
    kz_scheduler->touch(made, 0, KZT_GIVES);
    if (NT_SUCCESS(status)) {
        *port = made;
        return status;
    }
    made->is_refused = made->is_disconnected = true;
    if (made->server)
        made->server->connections--;
    return status;
}

void kz_disconnect_port(PFLT_PORT port)
{
    KZ_CALL();
    if (port->is_disconnected)
        return;
    port->is_disconnected = true;
    kz.changes++;
    port->serve(port);
    if (port->server)
        port->server->connections--;
    kz_scheduler->touch(port, 0, KZT_TAKES);
    port->running++;
    Inside inside = go_in(port->filter, "disconnect", (PVOID)port->disconnect);
    KZ_CALL_DRIVER(port->disconnect, port->cookie);
    come_back(inside, "disconnect returns");
    port->running--;
    kz.changes++;
    kz_scheduler->touch(port, 0, KZT_GIVES);
}

static void *callers_copy(const char *subject, const void *bytes, ULONG length)
{
    void *made = length ? kz_take_memory(KZK_CALLER, length, 0, 0) : NULL;
    if (!made)
        return NULL;
    memcpy(made, bytes, length);
    kz_piece_of(made)->subject = subject;
    kz_own(made, KZ_CALLERS, kz_me->process);
    return made;
}

static void look_at_buffers(const void *in, const void *out)
{
    if (in)
        kz_check_piece(kz_piece_of(in));
    if (out)
        kz_check_piece(kz_piece_of(out));
}

NTSTATUS kz_send_to_filter(PFLT_PORT port, void *in, ULONG in_length, void *out, ULONG out_length, PULONG returned)
{
    KZ_CALL();
    *returned = 0;
    if (kz_is_port_over(port))
        return STATUS_PORT_DISCONNECTED;
    if (!port->message)
        return STATUS_NOT_SUPPORTED;
    kz_scheduler->touch(port, 0, KZT_TAKES);
    port->running++;
    void *own_in = callers_copy("InputBuffer", in, in_length), *own_out = callers_copy("OutputBuffer", out, out_length);
    Inside inside = go_in(port->filter, "message", (PVOID)port->message);
    NTSTATUS status = KZ_CALL_DRIVER(port->message, port->cookie, own_in, in_length, own_out, out_length, returned);
    if (*returned > out_length)
        kz_tell(KZM_PAST_LENGTH, "ReturnOutputBufferLength", "%u bytes, where the program's buffer has %u", *returned, out_length);
    *returned = *returned > out_length ? out_length : *returned;
    look_at_buffers(own_in, own_out);
    come_back(inside, "message returns");
    kz_say_changed("OutputBuffer", own_out, out, out_length);
    if (out_length)
        memcpy(out, own_out, out_length);
    kz_give_back(own_in);
    kz_give_back(own_out);
    port->running--;
    kz.changes++;
    kz_scheduler->touch(port, 0, KZT_GIVES);
    return status;
}

bool kz_is_port_over(PFLT_PORT port)
{
    return port->is_closed || port->is_disconnected || port->is_ending;
}

static bool is_connection(PFLT_PORT port)
{
    PFLT_PORT one = kz.port->connections;
    while (one && one != port)
        one = one->next;
    return one != NULL;
}

VOID FltCloseClientPort(PFLT_FILTER Filter, PFLT_PORT *ClientPort)
{
    KZ_CALL();
    (void)Filter;
    PFLT_PORT port = *ClientPort;
    *ClientPort = NULL;
    if (!port)
        return;
    if (!is_connection(port) || port->is_closed) {
        kz_tell(KZM_NO_HANDLE, __func__, "no port of a connection (closed twice?)");
        return;
    }
    port->is_closed = true;
    kz.changes++;
    kz_scheduler->touch(port, 0, KZT_GIVES);
    port->serve(port);
}

/* ---- Messages to a program. */
static bool is_over(void *given)
{
    const KzPortMessage *message = given;
    return message->is_over || kz_is_port_over(message->port);
}

/* Who has taken it. */
static const KzClient *owner_of(const void *given)
{
    return ((const KzPortMessage *)given)->taker;
}

static void add(KzPortMessage *message)
{
    KzPortMessage **at = &message->port->messages;
    while (*at)
        at = &(*at)->next;
    *at = message;
    kz_scheduler->touch(message, 0, KZT_GIVES);
    message->port->serve(message->port);
}

static void take_out(KzPortMessage *message)
{
    for (KzPortMessage **at = &message->port->messages; *at; at = &(*at)->next)
        if (*at == message) {
            *at = message->next;
            return;
        }
}

static int64_t milliseconds_of(PLARGE_INTEGER timeout)
{
    if (!timeout)
        return -1;
    LARGE_INTEGER now;
    KeQuerySystemTime(&now);
    int64_t units = timeout->QuadPart <= 0 ? -timeout->QuadPart : timeout->QuadPart - now.QuadPart;
    return units > 0 ? (units + 9999) / 10000 : 0;
}

/* A scanner's own open is sent to it to be scanned: its thread waits for its own answer. */
static bool waits_for_itself(const KzPortMessage *message)
{
    return message->is_endless && !message->is_over && message->process == message->port->process && !kz_wants_input(message->process);
}

void kz_tell_messages(void)
{
    for (PFLT_PORT port = kz.port->connections; port; port = port->next)
        for (KzPortMessage *one = port->messages; one; one = one->next) {
            if (one->is_told || !waits_for_itself(one))
                continue;
            one->is_told = true;
            KzPlace before = kz_enter_again(&one->place);
            kz_tell(KZM_WAITS_FOR_EVER, "FltSendMessage", "process %llu waits for this callback, which waits for its answer, and no other thread of it takes messages: both would wait for ever", (unsigned long long)one->process);
            kz_me->place = before;
        }
}

NTSTATUS FltSendMessage(PFLT_FILTER Filter, PFLT_PORT *ClientPort, PVOID SenderBuffer, ULONG SenderBufferLength, PVOID ReplyBuffer, PULONG ReplyLength,
                        PLARGE_INTEGER Timeout)
{
    KZ_CALL();
    (void)Filter;
    PFLT_PORT port = ClientPort ? *ClientPort : NULL;
    if (!port)
        return STATUS_PORT_DISCONNECTED;
    if (!is_connection(port)) {
        kz_tell(KZM_NO_HANDLE, __func__, "no port of a connection");
        return STATUS_INVALID_PARAMETER;
    }
    if (kz_is_port_over(port))
        return STATUS_PORT_DISCONNECTED;
    if (kz_refuses(KZ_CHOICE_POOL, __func__))
        return STATUS_INSUFFICIENT_RESOURCES;
    kz_scheduler->touch(port, 0, KZT_TAKES);
    KzPortMessage message = {.port = port, .process = kz_me->process, .place = kz_me->place, .id = ++kz.port->last, .bytes = SenderBuffer, .length = SenderBufferLength, .reply = ReplyBuffer, .room = ReplyBuffer && ReplyLength ? *ReplyLength : 0};
    int64_t milliseconds = milliseconds_of(Timeout);
    message.is_endless = milliseconds < 0;
    kz_say_given("FltSendMessage", SenderBuffer, SenderBufferLength);
    add(&message);
    kz_waits_for_owner(owner_of, &message, false);
    kz_wait_for(is_over, &message, milliseconds, ReplyBuffer ? "FltSendMessage, which is to be answered" : "FltSendMessage");
    take_out(&message);
    kz_scheduler->touch(&message, 0, KZT_TAKES);
    if (message.is_over && ReplyLength && ReplyBuffer)
        *ReplyLength = message.answered;
    if (message.is_over)
        return message.status;
    if (kz_is_port_over(port))
        return STATUS_PORT_DISCONNECTED;
    const char *waits = kz_waits_for_mine();
    if (milliseconds < 0 && waits)
        kz_tell(KZM_WAITS_FOR_EVER, __func__, "the message waits for %s, which waits for a lock that this thread holds: both would wait for ever", waits);
    else if (milliseconds < 0)
        kz_tell(KZM_NOBODY_SETS, __func__, "no program takes or answers the message: it ends with STATUS_TIMEOUT");
    return STATUS_TIMEOUT;
}

KzPortMessage *kz_next_message(PFLT_PORT port)
{
    KzPortMessage *one = port->messages;
    while (one && one->is_taken)
        one = one->next;
    return one;
}

void kz_take_message(KzPortMessage *message)
{
    message->is_taken = true;
    message->is_over = !message->reply;
    kz_scheduler->touch(message, 0, KZT_TAKES);
    kz_scheduler->touch(message, 0, KZT_GIVES);
}

/* What is longer than the room isn't all there, and the sender is told so. */
bool kz_reply_message(PFLT_PORT port, uint64_t id, NTSTATUS status, const void *bytes, ULONG length)
{
    KzPortMessage *one = port->messages;
    while (one && !(one->id == id && one->is_taken && !one->is_over))
        one = one->next;
    if (!one)
        return false;
    one->answered = length < one->room ? length : one->room;
    memcpy(one->reply, bytes, one->answered);
    one->status = length > one->room ? STATUS_BUFFER_OVERFLOW : status;
    one->is_over = true;
    kz_scheduler->touch(one, 0, KZT_GIVES);
    return true;
}

/* ---- The end of a filter. Its connections end, once no callback of theirs runs any more: a program may be about to disconnect. */
static void disconnect_ports(PFLT_FILTER filter)
{
    for (PFLT_PORT one = kz.port->connections; one; one = one->next)
        if (one->filter == filter && !one->is_refused) {
            one->is_ending = true;
            kz_wait_for(is_quiet, one, -1, "a callback of a port to return");
            kz_scheduler->touch(one, 0, KZT_TAKES);
            kz_disconnect_port(one);
        }
}

static void tell_leak(PFLT_PORT port, const char *call, const char *what)
{
    KzPlace before = kz_enter_again(&port->place);
    kz_tell(KZM_PORT_LEAK, call, "never called for a %s", what);
    kz_me->place = before;
}

static bool has_ports_of(PFLT_FILTER filter)
{
    for (PFLT_PORT one = kz.port->servers; one; one = one->next)
        if (one->filter == filter)
            return true;
    for (PFLT_PORT one = kz.port->connections; one; one = one->next)
        if (one->filter == filter && !one->is_closed)
            return true;
    return false;
}

static void tell_ports(PFLT_FILTER filter)
{
    for (PFLT_PORT one = kz.port->servers; one; one = one->next)
        if (one->filter == filter)
            tell_leak(one, "FltCloseCommunicationPort", "port");
    for (PFLT_PORT one = kz.port->connections; one; one = one->next)
        if (one->filter == filter && !one->is_refused && !one->is_closed) {
            one->is_closed = true;
            tell_leak(one, "FltCloseClientPort", "connection");
        }
}

static void free_all(PFLT_PORT *list)
{
    while (*list) {
        PFLT_PORT one = *list;
        *list = one->next;
        free(one);
    }
}

static void free_ports(void)
{
    free_all(&kz.port->servers);
    free_all(&kz.port->connections);
}

const KzModule kz_port_module = {KZ_STATE(port), .free = free_ports, .filter_unregisters = disconnect_ports, .filter_ends = tell_ports, .has_any_of = has_ports_of};
