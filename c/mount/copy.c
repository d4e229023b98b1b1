/* Renames by a copy, for servers that know no other: so a filter that denies a deletion or a create isn't got round. What is there under the new name is overwritten: a crash between leaves both,
 * and of that one a part. Nobody interrupts it, for then too little would have been copied. */
#include "copy.h"

#include "below.h"
#include "error.h"
#include "names.h"

#include <errno.h>
#include <string.h>

/* One piece: how many bytes, 0 at the end, or an errno below 0. */
static int copy_piece(Call *call, uint64_t from, uint64_t to, uint64_t offset)
{
    uint8_t piece[LONGEST_TRANSFER];
    Reply reply;
    int error = call_ask(call, request_read(from, offset, sizeof piece), &reply);
    if (error != 0)
        return -error;
    if (reply.status == KZS_END_OF_FILE || (reply.status == KZS_OK && reply.length == 0))
        return 0;
    if (reply.status != KZS_OK || reply.length > sizeof piece)
        return -(reply.status != KZS_OK ? errno_of(reply.status) : EPROTO);
    size_t length = reply.length;
    memcpy(piece, reply.bytes, length);
    error = call_do(call, request_write(to, offset, piece, length), &reply);
    if (error != 0)
        return -error;
    return reply.information == length ? (int)length : -EIO;
}

/* It is cut behind the copy: both may be one file that has two names, which nobody here can see without the folder below. */
static int copy_bytes(Call *call, uint64_t from, uint64_t to)
{
    Reply reply;
    uint64_t offset = 0;
    int count = 0, error = 0;
    while ((count = copy_piece(call, from, to, offset)) > 0)
        offset += (uint64_t)count;
    if (count == 0)
        error = call_do(call, request_set_size(to, offset), &reply);
    if (error == 0 && count == 0)
        error = call_do(call, request_handle(FRAME_FLUSH, to), &reply);
    return error != 0 ? error : -count;
}

/* What is there under the new name is lost as soon as the copy begins: so there has to be room for all of it before. */
static int ask_for_room(Call *call)
{
    Reply reply;
    int error = call_do(call, request_handle(FRAME_QUERY_SIZE, call->handle), &reply);
    return error == 0 && below_is_full(call->mount, reply.information) ? ENOSPC : error;
}

int copy_file(Call *call, const char *path, const char *to, bool is_new)
{
    Reply reply;
    struct timespec times[2];
    uint8_t volume = (uint8_t)call->mount->options.volume;
    below_take_times(call->mount, path, times);
    int error = open_inside(call, path);
    if (error == 0)
        error = ask_for_room(call);
    if (error == 0)
        error = call_do(call, request_create(volume, is_new ? CREATE_NEW : CREATE_ALWAYS, to), &reply);
    if (error != 0)
        return error;
    uint64_t copied = reply.information;
    below_copy_mode(call->mount, path, to);
    error = copy_bytes(call, call->handle, copied);
    below_set_times(call->mount, to, times);
    bool is_lost = !call->has_handle;
    call->has_handle = false;
    if (!is_lost)
        call_ask(call, request_handle(FRAME_CLOSE, copied), &reply);
    if (!is_lost)
        call_ask(call, request_handle(FRAME_CLOSE, call->handle), &reply);
    return error;
}
