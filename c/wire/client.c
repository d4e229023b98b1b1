/* How requests are spelled, and replies read. */
#include "client.h"

#include <string.h>

static void add(Request *request, uint64_t number, unsigned bytes)
{
    put_number(request->fields + request->fields_length, number, bytes);
    request->fields_length += bytes;
}

/* A request with its fields, and one text at most, which is the last of them. */
static Request spelled(Frame frame)
{
    Request request = {.code = frame.code, .bytes = frame.text, .length = frame.text_length};
    for (const char *at = form_of(frame.code); *at; at += 2)
        if (at[1] != '-')
            add(&request, field_at(&frame, at[0]), (unsigned)(at[1] - '0'));
    return request;
}

Request request_create(uint8_t volume, uint8_t mode, const char *path)
{
    return spelled((Frame){.code = FRAME_CREATE, .volume = volume, .mode = mode, .text = (const uint8_t *)path, .text_length = strlen(path)});
}

Request request_read(uint64_t handle, uint64_t offset, uint32_t length)
{
    return spelled((Frame){.code = FRAME_READ, .handle = handle, .offset = offset, .length = length});
}

Request request_write(uint64_t handle, uint64_t offset, const void *bytes, size_t length)
{
    return spelled((Frame){.code = FRAME_WRITE, .handle = handle, .offset = offset, .text = bytes, .text_length = length});
}

Request request_set_size(uint64_t handle, uint64_t size)
{
    return spelled((Frame){.code = FRAME_SET_SIZE, .handle = handle, .offset = size});
}

Request request_rename(uint64_t handle, bool is_replacing, const char *path)
{
    return spelled((Frame){.code = FRAME_RENAME, .handle = handle, .mode = is_replacing, .text = (const uint8_t *)path, .text_length = strlen(path)});
}

Request request_list(uint8_t volume)
{
    return spelled((Frame){.code = FRAME_LIST, .volume = volume});
}

Request request_look(uint8_t volume, const char *path)
{
    return spelled((Frame){.code = FRAME_LOOK, .volume = volume, .text = (const uint8_t *)path, .text_length = strlen(path)});
}

Request request_handle(uint8_t code, uint64_t handle)
{
    return spelled((Frame){.code = code, .handle = handle});
}

size_t request_head(const Request *request, uint32_t number, uint8_t *room)
{
    put_number(room, SHORTEST_BODY + request->fields_length + request->length, FRAME_HEAD);
    put_number(room + 4, request->code, 1);
    put_number(room + 5, number, 4);
    memcpy(room + 9, request->fields, request->fields_length);
    return 9 + request->fields_length;
}

bool looked_read(const Reply *reply, Looked *looked)
{
    if (reply->length != LOOKED_BYTES)
        return false;
    *looked = (Looked){(LookedAt)reply->bytes[0], (uint16_t)number_at(reply->bytes + 1, 2), number_at(reply->bytes + 3, 8), number_at(reply->bytes + 11, 8)};
    return looked->kind == LOOKED_AT_FILE || looked->kind == LOOKED_AT_FOLDER;
}

bool reply_read(const uint8_t *body, size_t length, uint32_t number, Reply *reply)
{
    if (length < REPLY_HEAD || body[0] != FRAME_REPLY || number_at(body + 1, 4) != number)
        return false;
    *reply = (Reply){body[5], number_at(body + 6, 8), body + REPLY_HEAD, length - REPLY_HEAD};
    return true;
}
