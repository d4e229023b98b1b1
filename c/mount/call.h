/* One call of a program, while it is answered: the line that it has taken, the gate that it is in, and the handle that is closed at its end.
 *
 * A program that is interrupted while the server holds its request is answered EINTR. Then a thread of its own waits for the reply, closes what that brings, and gives the line back. */
#ifndef KZ_MOUNT_CALL_H
#define KZ_MOUNT_CALL_H

#include "mount.h"

typedef struct {
    fuse_req_t request; /* NULL: nobody can interrupt it */
    Mount *mount;
    Line *line;
    Inside inside;
    bool has_handle; /* it is closed at the end */
    uint64_t handle;
    bool is_abandoned; /* the reply is still to come */
    uint8_t code;      /* of the last request */
    unsigned gate;     /* of the name that it is about */
    Matter matter;
} Call;

Call call_of(fuse_req_t request);
/* A call that nobody waits for, on a line that was taken. */
Call call_on(Mount *mount, Line *line);

/* Each answers 0 or an errno. */
int call_take(Call *call, Want want);
/* Says what the call is about, and waits without a line as long as it would wait behind others of that name. */
int call_wait(Call *call, const char *path, Matter matter, Passage passage);
/* Takes a line for the name, once nobody is to be waited for. */
int call_take_name(Call *call, Want want, const char *path, Passage passage);
/* Goes in at the gate of the path. A line must have been taken. */
int call_enter(Call *call, const char *path, Passage passage);
/* The reply, whatever its status. */
int call_ask(Call *call, Request request, Reply *reply);
/* Requests without bytes go out together; their replies are received one by one. */
int call_send_all(Call *call, const Request *requests, unsigned count);
int call_receive(Call *call, Reply *reply);
/* The reply of a success, or the errno of its status. */
int call_do(Call *call, Request request, Reply *reply);
/* Goes in at the gate and opens the file: the handle is the call's, which closes it. ENOENT where a deleted file of that name is still open. */
int call_open(Call *call, const char *path, uint8_t mode);
/* Goes in at the gate and asks for the size of what is there: in one request, where the server knows it. */
int call_look(Call *call, const char *path, uint64_t *size);
int call_measure(Call *call, uint64_t handle, uint64_t *size);
/* The size of the file that the call has open, which is closed: both requests go out together. */
int call_measure_and_close(Call *call, uint64_t *size);
/* Asks the server what it knows. */
void call_learn(Mount *mount);
void call_leave(Call *call);
/* Closes a handle of the node's file: alone where the file is deleted. */
void call_close(Call *call, Node *node, uint64_t handle);
void call_end(Call *call);

#endif
