/* One connection with the server. Whoever has taken it from the pool uses it alone. */
#ifndef KZ_MOUNT_CONNECTION_H
#define KZ_MOUNT_CONNECTION_H

#include "wire/client.h"
#include "wait.h"

#include <sys/types.h>

/* So many requests go out together at most. */
#define MOST_AT_ONCE 8

/* The server's process, as it was when the first connection was made. */
typedef struct {
    pid_t pid;
    int process;   /* a descriptor that tells its end, or -1 */
    bool is_known; /* all connections of the start are made: a further one is made only while that process is there for sure */
} Server;

typedef struct {
    int socket; /* -1: it is gone */
    uint32_t number;       /* of the last request */
    unsigned awaited;      /* replies that are still to come */
    size_t received, used; /* bytes in the room, and those of them that are the last reply's */
    uint8_t room[LONGEST_FRAME]; /* a reply's bytes lie in it until the next one is received, or the server is asked again */
} Connection;

/* Each answers 0 or an errno. */
int connection_dial(Connection *connection, const char *path, Server *server);
/* One request and its reply: so a server that takes no more connections is seen, and what is none. */
int connection_greet(Connection *connection);
/* ENOTCONN: the server is gone */
int connection_send(Connection *connection, const Request *request);
/* Requests without bytes, which go out together. Their replies come in their order, and each has to be received. */
int connection_send_all(Connection *connection, const Request *requests, unsigned count);
/* EAGAIN: nothing came for a tick; EIO: the server is gone; EPROTO: what came is no reply */
int connection_receive(Connection *connection, Reply *reply);
bool connection_is_alive(const Connection *connection);
void connection_close(Connection *connection);
void server_forget(Server *server);

#endif
