/* The fields of requests. */
#include "frame.h"

/* Made by .ci/rules --write, from the definition of frames. */
static const char *const forms[] = {
    [FRAME_CREATE] = "v1m1p-",
    [FRAME_READ] = "h8o8l4",
    [FRAME_WRITE] = "h8o8b-",
    [FRAME_QUERY_SIZE] = "h8",
    [FRAME_SET_SIZE] = "h8s8",
    [FRAME_FLUSH] = "h8",
    [FRAME_LIST] = "v1",
    [FRAME_SET_DELETE] = "h8",
    [FRAME_CLOSE] = "h8",
    [FRAME_RESTORE] = "h8",
    [FRAME_RENAME] = "h8r1p-",
    [FRAME_LOOK] = "v1p-",
    [FRAME_LOAD] = "n-",
    [FRAME_ATTACH] = "f1v1c1n-a-",
    [FRAME_DETACH] = "i2",
    [FRAME_UNLOAD] = "f1",
    [FRAME_DISMOUNT] = "v1",
    [FRAME_STOP] = "",
};

const char *form_of(uint8_t code)
{
    return code < sizeof forms / sizeof forms[0] ? forms[code] : NULL;
}

void field_set(Frame *frame, char letter, uint64_t number)
{
    switch (letter) {
    case 'v': frame->volume = (uint8_t)number; break;
    case 'm':
    case 'r': frame->mode = (uint8_t)number; break;
    case 'f': frame->filter = (uint8_t)number; break;
    case 'i': frame->instance = (uint16_t)number; break;
    case 'l': frame->length = (uint32_t)number; break;
    case 'c': frame->text_length = (size_t)number; break;
    case 'h': frame->handle = number; break;
    default: frame->offset = number; /* the offset, or the size */
    }
}

uint64_t field_at(const Frame *frame, char letter)
{
    switch (letter) {
    case 'v': return frame->volume;
    case 'm':
    case 'r': return frame->mode;
    case 'f': return frame->filter;
    case 'i': return frame->instance;
    case 'l': return frame->length;
    case 'c': return frame->text_length;
    case 'h': return frame->handle;
    default: return frame->offset;
    }
}
