/* Numbers, lengths and paths of frames. */
#include "frame.h"

void put_number(uint8_t *room, uint64_t number, unsigned bytes)
{
    while (bytes-- > 0) {
        room[bytes] = (uint8_t)number;
        number >>= 8;
    }
}

uint64_t number_at(const uint8_t *room, unsigned bytes)
{
    uint64_t number = 0;
    while (bytes-- > 0)
        number = number << 8 | *room++;
    return number;
}

bool is_body_length(uint64_t length)
{
    return length >= SHORTEST_BODY && length <= LONGEST_BODY;
}

static bool is_dots(const uint8_t *part, size_t length)
{
    return (length == 1 && part[0] == '.') || (length == 2 && part[0] == '.' && part[1] == '.');
}

/* Parts of letters up to the last one that may be, between slashes. */
static bool has_parts(const uint8_t *text, size_t length, size_t most, uint8_t last)
{
    size_t begin = 0;
    if (length == 0 || length > most)
        return false;
    for (size_t at = 0; at <= length; at++) {
        if (at < length && text[at] != '/') {
            if (text[at] < ' ' || text[at] == 0x7f || text[at] > last)
                return false;
        } else {
            if (at == begin || is_dots(text + begin, at - begin))
                return false;
            begin = at + 1;
        }
    }
    return true;
}

/* How many bytes stand behind the first one of a letter; -1: none begins so. */
static int more_of(uint8_t first)
{
    return first < 0x80 ? 0 : first < 0xc2 ? -1 : first < 0xe0 ? 1 : first < 0xf0 ? 2 : first < 0xf5 ? 3 : -1;
}

/* Neither a longer spelling than is needed, nor half a pair, nor what is past the last letter. */
static bool is_letter(const uint8_t *text, int more)
{
    uint8_t least = text[0] == 0xe0 ? 0xa0 : text[0] == 0xf0 ? 0x90 : 0x80, most = text[0] == 0xed ? 0x9f : text[0] == 0xf4 ? 0x8f : 0xbf;
    for (int at = 1; at <= more; at++, least = 0x80, most = 0xbf)
        if (text[at] < least || text[at] > most)
            return false;
    return true;
}

bool is_utf8(const uint8_t *text, size_t length)
{
    for (size_t at = 0; at < length; at++) {
        int more = more_of(text[at]);
        if (more < 0 || (size_t)more >= length - at || !is_letter(text + at, more))
            return false;
        at += (size_t)more;
    }
    return true;
}

bool is_wide_path(const uint8_t *text, size_t length)
{
    return has_parts(text, length, LONGEST_WIDE_PATH, 0xff) && is_utf8(text, length);
}

bool is_path(const uint8_t *text, size_t length)
{
    return has_parts(text, length, LONGEST_PATH, '~');
}
