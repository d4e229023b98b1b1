/* Memory that nobody wrote yet: pools, contexts, rooms for answers, and the stack below a driver's function. As a rule it has one and the same byte each; a run under another one shows what is
 * made of it. */
#include "core/unwritten.h"

#include "core/binary.h"
#include "core/said.h"

#include <stdio.h>
#include <string.h>

enum { BELOW = 8192, SHOWN = 512, ROOM = 0x33 };

int kz_fill_byte = -1;

void kz_fill_with(uint8_t byte)
{
    kz_fill_byte = byte;
}

bool kz_is_filled(void)
{
    return kz_fill_byte >= 0;
}

int kz_unwritten(int usual)
{
    return kz_is_filled() ? kz_fill_byte : usual;
}

int kz_unwritten_room(void)
{
    return kz_is_filled() ? kz_fill_byte ^ ROOM : 0;
}

__attribute__((noinline)) static void fill_below(void)
{
    uint8_t room[BELOW];
    memset(room, kz_fill_byte, sizeof room);
    __asm__ volatile("" : : "r"(room) : "memory");
}

void kz_fill_stack(void)
{
    if (kz_is_filled())
        fill_below();
}

/* Those that are as they were aren't the driver's: two lines stand for each. */
static void say_line(const char *how, const uint8_t *bytes, const uint8_t *before, size_t at, size_t size)
{
    char text[2 * SHOWN + 1] = "";
    size_t end = size - at < SHOWN ? size - at : SHOWN;
    for (size_t one = 0; one < end; one++)
        if (before && bytes[at + one] == before[at + one])
            strcpy(text + 2 * one, "--");
        else
            snprintf(text + 2 * one, 3, "%02x", bytes[at + one]);
    kz_say(KZ_SAID_ELSE, "%s, %zu bytes from %zu on: %s\n", how, size, at, text);
}

void kz_say_changed(const char *how, const void *bytes, const void *before, size_t size)
{
    for (size_t at = 0; kz_is_filled() && at < size; at += SHOWN)
        say_line(how, bytes, before, at, size);
}

void kz_say_given(const char *how, const void *bytes, size_t size)
{
    kz_say_changed(how, bytes, NULL, size);
}

void kz_say_left(const void *room, size_t said, size_t size)
{
    const uint8_t *bytes = room;
    uint8_t before[SHOWN];
    memset(before, kz_unwritten_room(), sizeof before);
    for (size_t at = said; kz_is_filled() && at < size; at += SHOWN) {
        size_t end = size - at < SHOWN ? size - at : SHOWN;
        if (memcmp(bytes + at, before, end) != 0)
            say_line("behind what is said to be there", bytes + at, before, 0, end);
    }
}
