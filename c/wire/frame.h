/* What both sides of docs/FRAMES.md have: the codes of frames, their bounds, and how a number is spelled. */
#ifndef KZ_WIRE_FRAME_H
#define KZ_WIRE_FRAME_H

#include "status.h"

#include <stdbool.h>
#include <stddef.h>
#include <stdint.h>

enum {
    FRAME_CREATE = 1,
    FRAME_READ = 2,
    FRAME_WRITE = 3,
    FRAME_QUERY_SIZE = 4,
    FRAME_SET_SIZE = 5,
    FRAME_FLUSH = 6,
    FRAME_LIST = 7,
    FRAME_SET_DELETE = 8,
    FRAME_CLOSE = 9,
    FRAME_RESTORE = 10,
    FRAME_RENAME = 11,
    FRAME_LOOK = 12,
    FRAME_LOAD = 16,
    FRAME_ATTACH = 17,
    FRAME_DETACH = 18,
    FRAME_UNLOAD = 19,
    FRAME_DISMOUNT = 20,
    FRAME_STOP = 21,
    FRAME_REPLY = 128
};

enum { CREATE_EXISTING, CREATE_NEW, CREATE_ALWAYS };

/* A frame is its body behind four bytes with the body's length. */
#define FRAME_HEAD 4
#define SHORTEST_BODY 5
#define LONGEST_BODY 33000
#define LONGEST_FRAME (FRAME_HEAD + LONGEST_BODY)
/* A reply's body in front of its bytes. */
#define REPLY_HEAD 14
#define LONGEST_TRANSFER 32768
#define LONGEST_PATH 255
/* And of a server of drivers, in bytes. */
#define LONGEST_WIDE_PATH 1024
#define LARGEST_FILE ((uint64_t)1 << 40)

/* A request. Its texts and bytes lie in the frame, or are the caller's. */
typedef struct {
    uint8_t code, volume, mode, filter; /* whether a Rename replaces is its mode */
    uint16_t instance;
    uint32_t number, length;
    uint64_t handle, offset; /* the size of a SetSize is its offset */
    const uint8_t *text, *altitude;
    size_t text_length, altitude_length;
} Frame;

/* What a Look's reply has as bytes: what is there, its mode, and when it was read and written last, in nanoseconds since 1970. */
typedef enum { LOOKED_AT_NOTHING, LOOKED_AT_FILE, LOOKED_AT_FOLDER } LookedAt;
typedef struct {
    LookedAt kind;
    uint16_t mode;
    uint64_t read, written;
} Looked;
#define LOOKED_BYTES 19

/* The fields of a request in their order, by its code: of each the first letter of its name ('c' is the count of a name's letters), and how many bytes it has, or '-' for a text.
 * NULL: there is no such code. */
const char *form_of(uint8_t code);
/* A field that isn't a text, by its letter. */
void field_set(Frame *frame, char letter, uint64_t number);
uint64_t field_at(const Frame *frame, char letter);
/* A number in so many bytes, the highest first. */
void put_number(uint8_t *room, uint64_t number, unsigned bytes);
uint64_t number_at(const uint8_t *room, unsigned bytes);
/* Whether a body may have that length. */
bool is_body_length(uint64_t length);
/* Whether it is a path as the manager has them: at most 255 characters of ASCII, parts between slashes, of which none is empty, . or .. */
bool is_path(const uint8_t *text, size_t length);
/* The same as a server of drivers has them: of UTF-8, at most LONGEST_WIDE_PATH bytes. */
bool is_wide_path(const uint8_t *text, size_t length);
bool is_utf8(const uint8_t *text, size_t length);

#endif
