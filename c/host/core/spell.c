/* Letters beyond ASCII in the host's texts, and in UTF-8. */
#include "core/spell.h"

/* ---- One letter of the kit's in a text of the host's. */
static int digit(char letter)
{
    return letter >= '0' && letter <= '9' ? letter - '0' : letter >= 'a' && letter <= 'f' ? letter - 'a' + 10 : -1;
}

size_t kz_take_letter(const char *text, WCHAR *letter)
{
    unsigned number = 0;
    *letter = (WCHAR)(*text == '/' ? '\\' : *text & 255);
    for (size_t at = 1; at < 5; at++) {
        int one = *text == '|' ? digit(text[at]) : -1;
        if (one < 0)
            return 1;
        number = number << 4 | (unsigned)one;
    }
    *letter = (WCHAR)number;
    return 5;
}

void kz_put_letter(char *room, size_t size, size_t *used, WCHAR letter)
{
    char made[8] = {(char)(letter == '\\' ? '/' : letter)};
    if (letter > 127 || letter == '|')
        snprintf(made, sizeof made, "|%04x", letter);
    size_t length = made[0] ? strlen(made) : 1;
    if (*used + length < size) {
        memcpy(room + *used, made, length);
        room[*used + length] = 0;
    }
    *used += length;
}

/* ---- Texts of UTF-8. */
static bool is_first_half(unsigned letter)
{
    return letter >= 0xd800 && letter < 0xdc00;
}

static bool is_second_half(unsigned letter)
{
    return letter >= 0xdc00 && letter < 0xe000;
}

static size_t put_point(uint8_t *to, unsigned point)
{
    size_t more = point < 0x80 ? 0 : point < 0x800 ? 1 : point < 0x10000 ? 2 : 3;
    static const uint8_t heads[] = {0, 0xc0, 0xe0, 0xf0};
    to[0] = (uint8_t)(heads[more] | point >> 6 * more);
    for (size_t at = 1; at <= more; at++)
        to[at] = (uint8_t)(0x80 | (point >> 6 * (more - at) & 0x3f));
    return more + 1;
}

/* A first half stands as three bytes until its second one comes. */
void kz_put_utf8(char *room, size_t size, size_t *used, WCHAR letter)
{
    unsigned point = letter;
    const uint8_t *before = (const uint8_t *)room + *used - 3;
    if (is_second_half(letter) && *used >= 3 && before[0] == 0xed && before[1] >= 0xa0 && before[1] < 0xb0) {
        unsigned first = 0xd000u | (before[1] & 0x3fu) << 6 | (before[2] & 0x3fu);
        point = 0x10000 + ((first - 0xd800) << 10) + (letter - 0xdc00u);
        *used -= 3;
    }
    if (*used + 5 > size)
        return;
    *used += put_point((uint8_t *)room + *used, point);
    room[*used] = 0;
}

/* ---- Letters that Windows has in no name are U+F000 and the letter in those of other systems. */
enum { OUTSIDE = 0xf000 };

static bool is_outside(WCHAR letter)
{
    return letter > 0 && letter < 128 && strchr("\"*<>?|:\\", letter);
}

static void spell(char *room, size_t size, const char *text, bool is_path)
{
    size_t used = 0;
    room[0] = 0;
    while (*text) {
        WCHAR letter;
        size_t length = kz_take_letter(text, &letter);
        bool is_other = is_path && length > 1 && letter >= OUTSIDE && is_outside((WCHAR)(letter - OUTSIDE));
        kz_put_utf8(room, size, &used, length == 1 ? (WCHAR)(*text & 255) : is_other ? (WCHAR)(letter - OUTSIDE) : letter);
        text += length;
    }
}

void kz_spell(char *room, size_t size, const char *text)
{
    spell(room, size, text, false);
}

void kz_spell_outside(char *room, size_t size, const char *path)
{
    spell(room, size, path, true);
}

/* How many bytes a letter takes; 0 if that is no UTF-8. */
static size_t take_point(const uint8_t *text, unsigned *point)
{
    static const unsigned least[] = {0, 0x80, 0x800, 0x10000};
    size_t more = *text < 0x80 ? 0 : *text >= 0xc0 && *text < 0xe0 ? 1 : *text >= 0xe0 && *text < 0xf0 ? 2 : *text >= 0xf0 && *text < 0xf8 ? 3 : 4;
    if (more == 4)
        return 0;
    *point = more ? *text & (0x3fu >> more) : *text;
    for (size_t at = 1; at <= more; at++) {
        if ((text[at] & 0xc0) != 0x80)
            return 0;
        *point = *point << 6 | (text[at] & 0x3fu);
    }
    return *point < least[more] || *point > 0x10ffff || is_first_half(*point) || is_second_half(*point) ? 0 : more + 1;
}

static bool unspell(char *room, size_t size, const char *text, bool is_path)
{
    size_t used = 0;
    room[0] = 0;
    while (*text) {
        unsigned point;
        size_t length = take_point((const uint8_t *)text, &point);
        if (!length)
            return false;
        bool is_other = is_path && length == 1 && is_outside((WCHAR)point);
        if (is_other)
            kz_put_letter(room, size, &used, (WCHAR)(OUTSIDE + point));
        else if (length == 1 && used + 1 < size) { /* as it is: `|` stands between words too */
            room[used] = *text;
            room[used + 1] = 0;
        }
        used += length == 1 && !is_other;
        if (point >= 0x10000)
            kz_put_letter(room, size, &used, (WCHAR)(0xd800 + ((point - 0x10000) >> 10)));
        if (length > 1)
            kz_put_letter(room, size, &used, (WCHAR)(point < 0x10000 ? point : 0xdc00 + (point & 0x3ff)));
        text += length;
    }
    return used < size;
}

bool kz_unspell(char *room, size_t size, const char *text)
{
    return unspell(room, size, text, false);
}

bool kz_unspell_outside(char *room, size_t size, const char *path)
{
    return unspell(room, size, path, true);
}
