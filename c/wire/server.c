/* How requests are read, and replies spelled. */
#include "server.h"

#include <string.h>

#define LONGEST_NAME 32
#define LONGEST_ALTITUDE 64

/* ---- Texts. */
static bool is_digit(uint8_t letter)
{
    return letter >= '0' && letter <= '9';
}

static bool is_name_letter(uint8_t letter)
{
    return is_digit(letter) || (letter >= 'a' && letter <= 'z') || (letter >= 'A' && letter <= 'Z') || letter == '_' || letter == '-';
}

static bool is_name(const uint8_t *text, size_t length)
{
    size_t at = 0;
    while (at < length && is_name_letter(text[at]))
        at++;
    return length > 0 && at == length && length <= LONGEST_NAME;
}

static bool is_altitude(const uint8_t *text, size_t length)
{
    size_t digits = 0, points = 0;
    for (size_t at = 0; at < length; at++) {
        digits += is_digit(text[at]);
        points += text[at] == '.';
    }
    return length <= LONGEST_ALTITUDE && digits > 0 && points <= 1 && digits + points == length;
}

/* ---- Fields, in their order. */
typedef struct {
    const uint8_t *at;
    size_t left;
    bool is_short;
} Fields;

static uint64_t take(Fields *fields, unsigned bytes)
{
    if (fields->left < bytes) {
        fields->is_short = true;
        return 0;
    }
    uint64_t number = number_at(fields->at, bytes);
    fields->at += bytes;
    fields->left -= bytes;
    return number;
}

/* A text of so many bytes. */
static const uint8_t *take_text(Fields *fields, size_t length)
{
    const uint8_t *text = fields->at;
    if (fields->left < length) {
        fields->is_short = true;
        return text;
    }
    fields->at += length;
    fields->left -= length;
    return text;
}

/* An altitude, and a text without a count in front of it, fill the rest. */
static void take_field(Fields *fields, Frame *frame, char letter, char bytes, bool is_last)
{
    if (bytes != '-') {
        field_set(frame, letter, take(fields, (unsigned)(bytes - '0')));
    } else if (letter == 'a') {
        frame->altitude_length = fields->left;
        frame->altitude = take_text(fields, frame->altitude_length);
    } else {
        if (is_last)
            frame->text_length = fields->left;
        frame->text = take_text(fields, frame->text_length);
    }
}

/* False: there is no such code. */
static bool take_fields(Fields *fields, Frame *frame)
{
    const char *form = form_of(frame->code);
    for (const char *at = form; at && *at; at += 2)
        take_field(fields, frame, at[0], at[1], !at[2]);
    return form;
}

/* What is wrong with fields that are all there. */
static uint8_t refusal(const Frame *frame)
{
    switch (frame->code) {
    case FRAME_CREATE:
    case FRAME_RENAME:
        if (frame->mode > (frame->code == FRAME_CREATE ? CREATE_ALWAYS : 1))
            return KZS_BAD_REQUEST;
        return is_wide_path(frame->text, frame->text_length) ? KZS_OK : KZS_BAD_PATH;
    case FRAME_LOOK:
        return is_wide_path(frame->text, frame->text_length) ? KZS_OK : KZS_BAD_PATH;
    case FRAME_READ:
        return frame->length > LONGEST_TRANSFER ? KZS_BAD_REQUEST : KZS_OK;
    case FRAME_WRITE:
        return frame->text_length > LONGEST_TRANSFER ? KZS_BAD_REQUEST : KZS_OK;
    case FRAME_LOAD:
        return is_name(frame->text, frame->text_length) ? KZS_OK : KZS_BAD_NAME;
    case FRAME_ATTACH:
        if (!is_name(frame->text, frame->text_length))
            return KZS_BAD_NAME;
        return is_altitude(frame->altitude, frame->altitude_length) ? KZS_OK : KZS_BAD_ALTITUDE;
    default:
        return KZS_OK;
    }
}

uint8_t frame_read(const uint8_t *body, size_t length, Frame *frame)
{
    *frame = (Frame){.code = body[0], .number = (uint32_t)number_at(body + 1, 4)};
    Fields fields = {body + SHORTEST_BODY, length - SHORTEST_BODY, false};
    if (!take_fields(&fields, frame) || fields.is_short || fields.left > 0)
        return KZS_BAD_REQUEST;
    return refusal(frame);
}

size_t looked_put(uint8_t *room, const Looked *looked)
{
    put_number(room, looked->kind, 1);
    put_number(room + 1, looked->mode, 2);
    put_number(room + 3, looked->read, 8);
    put_number(room + 11, looked->written, 8);
    return LOOKED_BYTES;
}

size_t frame_reply(uint8_t *room, uint32_t number, uint8_t status, uint64_t information, const uint8_t *bytes, size_t length)
{
    put_number(room, REPLY_HEAD + length, FRAME_HEAD);
    room[4] = FRAME_REPLY;
    put_number(room + 5, number, 4);
    room[9] = status;
    put_number(room + 10, information, 8);
    memcpy(room + 18, length ? bytes : (const uint8_t *)"", length);
    return 18 + length;
}
