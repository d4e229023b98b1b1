/* Dialing, sending and receiving. */
#define _GNU_SOURCE
#include "connection.h"

#include <errno.h>
#include <poll.h>
#include <string.h>
#include <sys/socket.h>
#include <sys/syscall.h>
#include <sys/time.h>
#include <sys/uio.h>
#include <sys/un.h>
#include <unistd.h>

/* Ticks that the first reply may take. */
#define GREETING_TICKS 50

/* A server that was started anew at the same socket has no filters attached: what is written to it would lie below in plain. So only the process that was known is dialed. */
static int look_at_server(int socket, Server *server)
{
    struct ucred peer;
    socklen_t size = sizeof peer;
    if (getsockopt(socket, SOL_SOCKET, SO_PEERCRED, &peer, &size) != 0)
        return errno;
    if (server->pid == -1) {
        server->pid = peer.pid;
        server->process = peer.pid > 0 ? (int)syscall(SYS_pidfd_open, peer.pid, 0) : -1;
        return 0;
    }
    struct pollfd end = {server->process, POLLIN, 0};
    if (peer.pid != server->pid)
        return ENOTCONN;
    return server->is_known && (server->process == -1 || poll(&end, 1, 0) != 0) ? ENOTCONN : 0;
}

static int dial(int socket, const char *path, Server *server)
{
    struct sockaddr_un address = {.sun_family = AF_UNIX};
    if (strlen(path) >= sizeof address.sun_path)
        return ENAMETOOLONG;
    memcpy(address.sun_path, path, strlen(path) + 1);
    struct timeval tick = {0, TICK_MILLISECONDS * 1000}, patience = {1, 0}, for_ever = {0, 0};
    setsockopt(socket, SOL_SOCKET, SO_RCVTIMEO, &tick, sizeof tick);
    setsockopt(socket, SOL_SOCKET, SO_SNDTIMEO, &patience, sizeof patience);
    if (connect(socket, (struct sockaddr *)&address, sizeof address) != 0)
        return errno;
    setsockopt(socket, SOL_SOCKET, SO_SNDTIMEO, &for_ever, sizeof for_ever);
    return look_at_server(socket, server);
}

int connection_dial(Connection *connection, const char *path, Server *server)
{
    connection->received = connection->used = 0;
    connection->socket = socket(AF_UNIX, SOCK_STREAM | SOCK_CLOEXEC, 0);
    if (connection->socket == -1)
        return errno;
    int error = dial(connection->socket, path, server);
    if (error != 0)
        connection_close(connection);
    return error;
}

/* Takes what was sent from the front of the parts. */
static void advance(struct msghdr *message, size_t sent)
{
    while (message->msg_iovlen > 0 && sent >= message->msg_iov->iov_len) {
        sent -= message->msg_iov->iov_len;
        message->msg_iov++;
        message->msg_iovlen--;
    }
    if (message->msg_iovlen > 0) {
        message->msg_iov->iov_base = (uint8_t *)message->msg_iov->iov_base + sent;
        message->msg_iov->iov_len -= sent;
    }
}

static int send_parts(Connection *connection, struct iovec *parts, size_t count, unsigned requests)
{
    struct msghdr message = {.msg_iov = parts, .msg_iovlen = count};
    connection->received = connection->used = 0;
    connection->awaited = requests;
    while (message.msg_iovlen > 0) {
        ssize_t sent = sendmsg(connection->socket, &message, MSG_NOSIGNAL);
        if (sent >= 0)
            advance(&message, (size_t)sent);
        else if (errno != EINTR)
            return ENOTCONN;
    }
    return 0;
}

int connection_send(Connection *connection, const Request *request)
{
    uint8_t head[LONGEST_REQUEST_HEAD];
    size_t length = request_head(request, ++connection->number, head);
    struct iovec parts[2] = {{head, length}, {(void *)request->bytes, request->length}};
    return send_parts(connection, parts, 2, 1);
}

int connection_send_all(Connection *connection, const Request *requests, unsigned count)
{
    uint8_t heads[MOST_AT_ONCE][LONGEST_REQUEST_HEAD];
    struct iovec parts[MOST_AT_ONCE];
    for (unsigned at = 0; at < count; at++)
        parts[at] = (struct iovec){heads[at], request_head(&requests[at], ++connection->number, heads[at])};
    return send_parts(connection, parts, count, count);
}

/* How many bytes the frame at the front of the room has with its length: 0 where that hasn't come whole, or no frame has so many. */
static size_t whole(const Connection *connection)
{
    uint64_t length = connection->received < FRAME_HEAD ? 0 : number_at(connection->room, FRAME_HEAD);
    return is_body_length(length) ? (size_t)length + FRAME_HEAD : 0;
}

/* What came after the last reply moves to the front. */
static void take_rest(Connection *connection)
{
    connection->received -= connection->used;
    memmove(connection->room, connection->room + connection->used, connection->received);
    connection->used = 0;
}

/* The reply at the front, to the request that is next in turn. */
static int read_front(Connection *connection, Reply *reply)
{
    connection->used = whole(connection);
    uint32_t number = connection->number - --connection->awaited;
    if (connection->awaited == 0 && connection->received > connection->used)
        return EPROTO;
    return reply_read(connection->room + FRAME_HEAD, connection->used - FRAME_HEAD, number, reply) ? 0 : EPROTO;
}

int connection_receive(Connection *connection, Reply *reply)
{
    take_rest(connection);
    for (;;) {
        size_t length = whole(connection);
        if (length > 0 && connection->received >= length)
            return read_front(connection, reply);
        if (length == 0 && connection->received >= FRAME_HEAD)
            return EPROTO;
        ssize_t count = recv(connection->socket, connection->room + connection->received, sizeof connection->room - connection->received, 0);
        if (count == -1 && errno == EINTR)
            continue;
        if (count == -1)
            return errno == EAGAIN || errno == EWOULDBLOCK ? EAGAIN : EIO;
        if (count == 0)
            return EIO;
        connection->received += (size_t)count;
    }
}

int connection_greet(Connection *connection)
{
    Request request = request_handle(FRAME_QUERY_SIZE, UINT64_MAX);
    Reply reply;
    int error = connection_send(connection, &request);
    for (unsigned tick = 0; error == 0 || (error == EAGAIN && tick < GREETING_TICKS); tick++) {
        error = connection_receive(connection, &reply);
        if (error == 0)
            return 0;
    }
    connection_close(connection);
    return error == EAGAIN ? ETIMEDOUT : error == EPROTO ? EPROTO : ECONNREFUSED;
}

/* An idle connection has nothing to receive: what comes is its end. */
bool connection_is_alive(const Connection *connection)
{
    char byte;
    return connection->socket != -1 && recv(connection->socket, &byte, 1, MSG_PEEK | MSG_DONTWAIT) == -1 && (errno == EAGAIN || errno == EWOULDBLOCK);
}

void connection_close(Connection *connection)
{
    if (connection->socket != -1)
        close(connection->socket);
    connection->socket = -1;
}

void server_forget(Server *server)
{
    if (server->process != -1)
        close(server->process);
    server->process = -1;
}
