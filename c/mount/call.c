/* Asking, and what is left of it. */
#include "call.h"

#include "below.h"
#include "error.h"

#include <errno.h>
#include <stdlib.h>

/* Ticks that an interrupted program waits on: most replies come meanwhile, and a signal that kills nobody spoils no read. */
#define GRACE 3

Call call_of(fuse_req_t request)
{
    return (Call){.request = request, .mount = fuse_req_userdata(request)};
}

Call call_on(Mount *mount, Line *line)
{
    return (Call){.mount = mount, .line = line};
}

static bool is_unwanted(void *whom)
{
    Call *call = whom;
    return call->request && (fuse_req_interrupted(call->request) || fuse_session_exited(call->mount->session));
}

int call_take(Call *call, Want want)
{
    return pool_take(&call->mount->pool, want, is_unwanted, call, &call->line);
}

int call_wait(Call *call, const char *path, Matter matter, Passage passage)
{
    Pool *pool = &call->mount->pool;
    Gates *gates = &call->mount->gates;
    call->gate = gate_of(path);
    call->matter = matter;
    while (gate_is_barred(gates, call->gate, matter, passage, pool_is_scarce(pool))) {
        gate_wait(gates);
        if (is_unwanted(call))
            return EINTR;
    }
    return 0;
}

int call_take_name(Call *call, Want want, const char *path, Passage passage)
{
    int error = call_wait(call, path, NAMES, passage);
    return error != 0 ? error : call_take(call, want);
}

int call_enter(Call *call, const char *path, Passage passage)
{
    call->inside = gate_enter(&call->mount->gates, gate_of(path), passage, is_unwanted, call);
    return call->inside.passage == AT_NO_GATE ? EINTR : 0;
}

static int receive(Call *call, Reply *reply)
{
    unsigned ticks = 0;
    int error = connection_receive(&call->line->connection, reply);
    while (error == EAGAIN) {
        if (is_unwanted(call) && ++ticks > GRACE)
            return EINTR;
        if (!call->request && ++ticks == GRACE)
            pool_bypass(&call->mount->pool, call->line);
        error = connection_receive(&call->line->connection, reply);
    }
    return error;
}

/* What becomes of a call that was answered, or not. */
static int answered(Call *call, int error)
{
    if (error == EINTR) {
        call->is_abandoned = true;
    } else if (error != 0) {
        call->has_handle = false;
        pool_lost(&call->mount->pool, call->line);
    }
    return error;
}

int call_ask(Call *call, Request request, Reply *reply)
{
    call->code = request.code;
    int error = connection_send(&call->line->connection, &request);
    if (error == 0)
        error = receive(call, reply);
    return answered(call, error);
}

/* No status says that the disk is full: where the device failed, the folder is asked. */
static int errno_of_reply(const Call *call, const Request *request, uint8_t status)
{
    uint8_t code = request->code;
    bool has_need = code == FRAME_CREATE || code == FRAME_WRITE || code == FRAME_SET_SIZE || code == FRAME_FLUSH || code == FRAME_RENAME;
    bool is_full = status == KZS_DEVICE_FAULT && has_need && below_is_full(call->mount, request->length);
    return is_full ? ENOSPC : errno_of(status);
}

int call_do(Call *call, Request request, Reply *reply)
{
    int error = call_ask(call, request, reply);
    return error != 0 ? error : errno_of_reply(call, &request, reply->status);
}

int call_open(Call *call, const char *path, uint8_t mode)
{
    Reply reply;
    Request request = request_create((uint8_t)call->mount->options.volume, mode, path);
    int error = call_enter(call, path, BESIDE_CREATES);
    if (error == 0 && nodes_is_hidden(&call->mount->nodes, path))
        error = ENOENT;
    if (error == 0)
        error = call_ask(call, request, &reply);
    if (error != 0)
        return error;
    if (reply.status != KZS_OK)
        return mode == CREATE_EXISTING ? errno_of_look(reply.status) : errno_of_reply(call, &request, reply.status);
    call->has_handle = true;
    call->handle = reply.information;
    return 0;
}

/* A folder that only the server knows of is none here. */
static int look(Call *call, const char *path, uint64_t *size)
{
    Reply reply;
    Looked looked;
    int error = call_enter(call, path, BESIDE_CREATES);
    if (error == 0 && nodes_is_hidden(&call->mount->nodes, path))
        error = ENOENT;
    if (error == 0)
        error = call_ask(call, request_look((uint8_t)call->mount->options.volume, path), &reply);
    if (error != 0 || reply.status != KZS_OK)
        return error != 0 ? error : errno_of_look(reply.status);
    *size = reply.information;
    return !looked_read(&reply, &looked) ? EPROTO : looked.kind == LOOKED_AT_FILE ? 0 : EIO;
}

int call_look(Call *call, const char *path, uint64_t *size)
{
    if (call->mount->knows_look)
        return look(call, path, size);
    int error = call_open(call, path, CREATE_EXISTING);
    return error != 0 ? error : call_measure_and_close(call, size);
}

int call_measure(Call *call, uint64_t handle, uint64_t *size)
{
    Reply reply;
    int error = call_do(call, request_handle(FRAME_QUERY_SIZE, handle), &reply);
    if (error == 0)
        *size = reply.information;
    return error;
}

int call_send_all(Call *call, const Request *requests, unsigned count)
{
    call->code = requests[count - 1].code;
    return answered(call, connection_send_all(&call->line->connection, requests, count));
}

int call_receive(Call *call, Reply *reply)
{
    return answered(call, receive(call, reply));
}

int call_measure_and_close(Call *call, uint64_t *size)
{
    Reply measured = {0}, closed;
    Request requests[2] = {request_handle(FRAME_QUERY_SIZE, call->handle), request_handle(FRAME_CLOSE, call->handle)};
    call->has_handle = false;
    int error = call_send_all(call, requests, 2);
    if (error == 0)
        error = call_receive(call, &measured);
    uint8_t status = measured.status;
    *size = measured.information;
    if (error == 0)
        error = call_receive(call, &closed);
    return error != 0 ? error : errno_of(status);
}

/* What comes of a request that can't succeed. */
static uint8_t status_of(Mount *mount, Request request)
{
    Reply reply = {.status = KZS_BAD_REQUEST};
    Call call = call_on(mount, NULL);
    if (call_take(&call, (Want){0}) == 0)
        call_ask(&call, request, &reply);
    call_end(&call);
    return reply.status;
}

/* No filter hears of these: there is no such handle, and no such path. */
void call_learn(Mount *mount)
{
    mount->knows_rename = status_of(mount, request_rename(UINT64_MAX, false, "x")) != KZS_BAD_REQUEST;
    mount->knows_look = status_of(mount, request_look((uint8_t)mount->options.volume, "a//b")) != KZS_BAD_REQUEST;
    mount->is_wide = status_of(mount, request_rename(UINT64_MAX, false, "\u00e9")) == KZS_NO_HANDLE;
}

void call_leave(Call *call)
{
    gate_leave(&call->mount->gates, &call->inside);
}

/* At the gate, as long as the file's name is what it was. */
static Look enter_to_close(Call *call, Node *node)
{
    Look look = nodes_look(&call->mount->nodes, node);
    if (call_enter(call, look.path, look.is_deleted ? ALONE : BESIDE_CREATES) != 0)
        return look;
    Look again = nodes_look(&call->mount->nodes, node);
    if (again.is_deleted != look.is_deleted) {
        call_leave(call);
        call_enter(call, again.path, ALONE);
    }
    return again;
}

void call_close(Call *call, Node *node, uint64_t handle)
{
    Reply reply;
    enter_to_close(call, node);
    call_ask(call, request_handle(FRAME_CLOSE, handle), &reply);
    if (!call->is_abandoned)
        call_leave(call);
}

static void finish(Call *call)
{
    Reply reply;
    if (call->has_handle) {
        call->has_handle = false;
        call_ask(call, request_handle(FRAME_CLOSE, call->handle), &reply);
    }
}

/* The thread that waits for a reply which nobody wants any more. */
static void *settle(void *abandoned)
{
    Call *call = abandoned;
    Pool *pool = &call->mount->pool;
    Reply reply;
    call->is_abandoned = false;
    pool_replace(pool, call->line);
    int error = receive(call, &reply);
    while (error == 0 && call->line->connection.awaited > 0)
        error = receive(call, &reply);
    if (error != 0) {
        call->has_handle = false;
        pool_lost(pool, call->line);
    } else if (call->code == FRAME_CREATE && reply.status == KZS_OK) {
        call->has_handle = true;
        call->handle = reply.information;
    }
    call_end(call);
    gate_abandon(&call->mount->gates, call->gate, call->matter, false);
    free(call);
    pool_settle(pool);
    return NULL;
}

/* Nothing would be lost by its end but the reply, and no other line is to be had for it. */
static bool is_to_hang_up(const Call *call)
{
    Pool *pool = &call->mount->pool;
    return pool_is_scarce(pool) && !pool_is_home(pool, call->line) && call->inside.passage != ALONE;
}

static bool begin_settling(const Call *call)
{
    pthread_t thread;
    Mount *mount = call->mount;
    Call *copy = is_to_hang_up(call) ? NULL : malloc(sizeof *copy);
    if (!copy)
        return false;
    *copy = *call;
    copy->request = NULL;
    pool_abandon(&mount->pool, call->line);
    gate_abandon(&mount->gates, call->gate, call->matter, true);
    if (pthread_create(&thread, NULL, settle, copy) == 0) {
        pthread_detach(thread);
        return true;
    }
    gate_abandon(&mount->gates, call->gate, call->matter, false);
    pool_settle(&mount->pool);
    free(copy);
    return false;
}

void call_end(Call *call)
{
    if (!call->line)
        return;
    if (!call->is_abandoned)
        finish(call);
    if (call->is_abandoned && begin_settling(call))
        return;
    if (call->is_abandoned)
        pool_lost(&call->mount->pool, call->line);
    call_leave(call);
    pool_give(&call->mount->pool, call->line);
    call->line = NULL;
}
