/* Texts as the kit has them, and the other way round. */
#include "lib/letters.h"

#include "core/piece.h"
#include "lib/upcase.h"

ULONG kz_widen(WCHAR *room, const char *text)
{
    size_t length = 0;
    while (*text)
        text += kz_take_letter(text, &room[length++]);
    return (ULONG)(length * sizeof(WCHAR));
}

int kz_compare_texts(const char *a, const char *b, size_t most)
{
    for (size_t at = 0; at < most && (a[at] || b[at]);) {
        WCHAR one, other;
        size_t length = kz_take_letter(a + at, &one);
        bool is_short = kz_take_letter(b + at, &other) != length;
        int apart = kz_upcase(one) - kz_upcase(other);
        if (apart || is_short)
            return apart ? apart : 1;
        at += length;
    }
    return 0;
}

size_t kz_letters(const char *text)
{
    size_t length = 0;
    WCHAR letter;
    for (; *text; length++)
        text += kz_take_letter(text, &letter);
    return length;
}

bool kz_give_name(PUNICODE_STRING to, const char *text, bool is_ended)
{
    USHORT size = (USHORT)(kz_letters(text) * sizeof(WCHAR)), whole = (USHORT)(size + is_ended * sizeof(WCHAR));
    WCHAR *room = kz_take_memory(KZK_NAME, whole, 0, 0);
    *to = (UNICODE_STRING){size, whole, room};
    if (room)
        kz_widen(room, text);
    return room != NULL;
}

size_t kz_narrow(char *room, size_t size, PCUNICODE_STRING text)
{
    size_t used = 0;
    room[0] = 0;
    for (size_t at = 0; text && at < text->Length / sizeof(WCHAR); at++)
        kz_put_letter(room, size, &used, text->Buffer[at]);
    return used;
}
