/* Calls of open files. */
#include "data.h"

#include "files.h"
#include "error.h"

#include <errno.h>
#include <fcntl.h>
#include <stdlib.h>
#include <string.h>

static File *file_of(const struct fuse_file_info *info)
{
    return (File *)(uintptr_t)info->fh;
}

static int ask_read(Call *call, uint64_t handle, size_t size, uint64_t offset, Reply *reply)
{
    int error = call_ask(call, request_read(handle, offset, (uint32_t)size), reply);
    if (error == 0 && reply->status == KZS_END_OF_FILE)
        reply->length = 0;
    else if (error == 0)
        error = errno_of(reply->status);
    return error == 0 && reply->length > size ? EPROTO : error;
}

/* The bytes lie in the line's room. A handle of this read alone is closed before the program goes on, and its reply comes there. */
static void answer_read(Call *call, File *file, const Reply *reply)
{
    uint8_t copy[LONGEST_TRANSFER];
    fuse_req_t request = call->request;
    if (!call->has_handle) {
        fuse_reply_buf(request, (const char *)reply->bytes, reply->length);
        call->request = NULL;
        call_end(call);
        return;
    }
    memcpy(copy, reply->bytes, reply->length);
    file_done(call, file);
    fuse_reply_buf(request, (const char *)copy, reply->length);
}

/* No request may go past the largest file. */
static size_t fitting(size_t size, uint64_t offset)
{
    if (offset >= LARGEST_FILE)
        return 0;
    return size > LARGEST_FILE - offset ? (size_t)(LARGEST_FILE - offset) : size;
}

static size_t part_of(size_t size, size_t done)
{
    return size - done > LONGEST_TRANSFER ? LONGEST_TRANSFER : size - done;
}

/* Each reply is received, so that the line is in step. What follows the file's end, or a failure, doesn't count. */
static int take_parts(Call *call, size_t size, uint8_t *room, size_t *length)
{
    int first = 0;
    bool is_over = false;
    for (size_t done = 0; done < size; done += LONGEST_TRANSFER) {
        Reply reply;
        size_t part = part_of(size, done);
        int error = call_receive(call, &reply);
        if (error != 0)
            return error;
        if (!is_over)
            first = reply.status == KZS_END_OF_FILE ? 0 : reply.length > part ? EPROTO : errno_of(reply.status);
        if (!is_over && reply.status == KZS_OK && first == 0) {
            memcpy(room + done, reply.bytes, reply.length);
            *length = done + reply.length;
        }
        is_over = is_over || reply.status != KZS_OK || reply.length < part;
    }
    return first;
}

/* A read of more than a frame has: all frames go out at once. */
static int ask_parts(Call *call, uint64_t handle, size_t size, uint64_t offset, uint8_t *room, size_t *length)
{
    Request requests[MOST_AT_ONCE];
    unsigned count = 0;
    for (size_t done = 0; done < size; done += LONGEST_TRANSFER)
        requests[count++] = request_read(handle, offset + done, (uint32_t)part_of(size, done));
    int error = call_send_all(call, requests, count);
    return error != 0 ? error : take_parts(call, size, room, length);
}

static void read_parts(Call *call, File *file, uint64_t handle, size_t size, uint64_t offset)
{
    fuse_req_t request = call->request;
    size_t length = 0;
    uint8_t *room = malloc(size);
    int error = room ? ask_parts(call, handle, size, offset, room, &length) : ENOMEM;
    file_done(call, file);
    if (error == 0)
        fuse_reply_buf(request, (const char *)room, length);
    else
        fuse_reply_err(request, error == ENOTCONN ? EIO : error);
    free(room);
}

void data_read(fuse_req_t request, fuse_ino_t number, size_t size, off_t offset, struct fuse_file_info *info)
{
    Call call = call_of(request);
    Reply reply = {0};
    uint64_t handle;
    (void)number;
    size = fitting(size > LARGEST_REQUEST ? LARGEST_REQUEST : size, (uint64_t)offset);
    if (size == 0) {
        fuse_reply_buf(request, NULL, 0);
        return;
    }
    int error = file_reach(&call, file_of(info), BYTES, &handle);
    if (error == 0 && size > LONGEST_TRANSFER) {
        read_parts(&call, file_of(info), handle, size, (uint64_t)offset);
        return;
    }
    if (error == 0)
        error = ask_read(&call, handle, size, (uint64_t)offset, &reply);
    if (error == 0) {
        answer_read(&call, file_of(info), &reply);
        return;
    }
    file_done(&call, file_of(info));
    fuse_reply_err(request, error == ENOTCONN ? EIO : error);
}

/* One after the other: a frame that is refused leaves those that follow it unwritten. */
static int write_parts(Call *call, uint64_t handle, const char *bytes, size_t size, uint64_t offset, size_t *written)
{
    while (*written < size) {
        Reply reply;
        size_t part = part_of(size, *written);
        int error = call_do(call, request_write(handle, offset + *written, bytes + *written, part), &reply);
        if (error == 0 && reply.information > part)
            error = EPROTO;
        if (error != 0)
            return error;
        *written += reply.information;
        if (reply.information < part)
            return 0;
    }
    return 0;
}

/* A write at the end asks for the size first: two clients of the server may come between, two programs on the mount can't. */
static int ask_write(Call *call, uint64_t handle, const char *bytes, size_t size, uint64_t offset, bool is_append, size_t *written)
{
    int error = is_append ? call_measure(call, handle, &offset) : 0;
    if (error == 0 && fitting(size, offset) == 0)
        error = EFBIG;
    return error != 0 ? error : write_parts(call, handle, bytes, fitting(size, offset), offset, written);
}

void data_write(fuse_req_t request, fuse_ino_t number, const char *bytes, size_t size, off_t offset, struct fuse_file_info *info)
{
    Call call = call_of(request);
    File *file = file_of(info);
    uint64_t handle;
    size_t written = 0;
    bool is_append = (info->flags & O_APPEND) && !info->writepage;
    (void)number;
    int error = file_reach(&call, file, BYTES, &handle);
    if (error == 0)
        error = ask_write(&call, handle, bytes, size, (uint64_t)offset, is_append, &written);
    file_done(&call, file);
    if (written > 0)
        nodes_changed(&call.mount->nodes, file->node);
    /* What was written before a failure is told, and the next write meets the failure. Of the kernel's own pages it wants to hear of the failure alone. */
    if (error == 0 && info->writepage && written < size)
        error = EIO;
    if (error == 0 || (written > 0 && !info->writepage))
        fuse_reply_write(request, written);
    else
        fuse_reply_err(request, error == ENOTCONN ? EIO : error);
}

void data_sync(fuse_req_t request, fuse_ino_t number, int is_data_alone, struct fuse_file_info *info)
{
    Call call = call_of(request);
    Reply reply;
    uint64_t handle;
    (void)number;
    (void)is_data_alone;
    int error = file_reach(&call, file_of(info), FLUSHES, &handle);
    if (error == 0)
        error = call_do(&call, request_handle(FRAME_FLUSH, handle), &reply);
    file_done(&call, file_of(info));
    fuse_reply_err(request, error == ENOTCONN ? EIO : error);
}

void data_release(fuse_req_t request, fuse_ino_t number, struct fuse_file_info *info)
{
    (void)number;
    fuse_reply_err(request, 0);
    file_leave(file_of(info));
}
