/* Replies: to where each goes, and how it is printed. */
#include "run/reply.h"

#include "core/client.h"
#include "core/said.h"
#include "run/read.h"
#include "run/seen.h"
#include "run/sink.h"

/* So many bytes are said at once. */
enum { PIECE = 256 };

static void spell(char *room, const uint8_t *bytes, size_t count)
{
    for (size_t at = 0; at < count; at++) {
        *room++ = "0123456789abcdef"[bytes[at] >> 4];
        *room++ = "0123456789abcdef"[bytes[at] & 15];
    }
    *room = 0;
}

static void say_bytes(const uint8_t *bytes, size_t length)
{
    char text[2 * PIECE + 1];
    for (size_t at = 0; at < length && !kz_is_quiet; at += PIECE) {
        spell(text, bytes + at, length - at < PIECE ? length - at : PIECE);
        kz_say(KZ_SAID_REPLY, "%s", text);
    }
}

/* The kit's own status stands behind a number that stands for another. */
void kz_print_reply(KzReply reply, NTSTATUS other, const uint8_t *bytes, size_t length)
{
    kz_pass_reply(reply, bytes, length);
    if (reply.held && kz_me->next_name)
        kz_name_later(kz_me->next_name, reply.operation);
    if (reply.is_handle)
        kz_name_given(reply.operation, reply.information);
    kz_note_reply(reply, other, bytes, length, kz_me->says);
    if (reply.held) {
        kz_say(KZ_SAID_REPLY, "held %llu\n", (unsigned long long)reply.operation);
        return;
    }
    kz_say(KZ_SAID_REPLY, "status %u", reply.status);
    if (other)
        kz_say(KZ_SAID_REPLY, " (0x%08x)", (unsigned)other);
    kz_say(reply.is_handle ? KZ_SAID_HANDLE : KZ_SAID_REPLY, " info %llu bytes ", (unsigned long long)reply.information);
    say_bytes(bytes, length);
    kz_say(KZ_SAID_REPLY, length ? "\n" : "-\n");
    if (*kz_me->says)
        kz_say(KZ_SAID_REPLY, "says %.1000s\n", kz_me->says);
    kz_me->says[0] = 0;
}
