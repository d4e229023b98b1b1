/* The client's side of docs/FRAMES.md: requests are spelled, and replies are read. */
#ifndef KZ_WIRE_CLIENT_H
#define KZ_WIRE_CLIENT_H

#include "frame.h"

/* A request as it is sent: its fields in front, and the text or the bytes behind them, which are the caller's. */
typedef struct {
    uint8_t code;
    uint8_t fields[20];
    size_t fields_length;
    const void *bytes;
    size_t length;
} Request;

typedef struct {
    uint8_t status;
    uint64_t information;
    const uint8_t *bytes; /* in the frame */
    size_t length;
} Reply;

#define LONGEST_REQUEST_HEAD (FRAME_HEAD + SHORTEST_BODY + 20)

Request request_create(uint8_t volume, uint8_t mode, const char *path);
Request request_read(uint64_t handle, uint64_t offset, uint32_t length);
Request request_write(uint64_t handle, uint64_t offset, const void *bytes, size_t length);
Request request_set_size(uint64_t handle, uint64_t size);
/* The handle's file gets that name; what has it is replaced, if that is asked for. */
Request request_rename(uint64_t handle, bool is_replacing, const char *path);
Request request_list(uint8_t volume);
Request request_look(uint8_t volume, const char *path);
/* QuerySize, Flush, SetDelete, Close or Restore, by its code */
Request request_handle(uint8_t code, uint64_t handle);

/* What stands in front of a request's bytes, in room for a longest one: how many bytes it has. */
size_t request_head(const Request *request, uint32_t number, uint8_t *room);
/* Reads a body; false: it is no reply to the request of that number. */
bool reply_read(const uint8_t *body, size_t length, uint32_t number, Reply *reply);

/* What a Look's reply says; false: it is none. */
bool looked_read(const Reply *reply, Looked *looked);

#endif
