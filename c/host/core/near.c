/* How many letters two words are apart: rows of a table, one letter of the first word after the other. */
#include "core/near.h"

#include <string.h>

static size_t least(size_t a, size_t b)
{
    return a < b ? a : b;
}

size_t kz_letters_apart(const char *a, const char *b)
{
    size_t row[KZ_FAR], length = strlen(b);
    if (strlen(a) >= KZ_FAR || length >= KZ_FAR)
        return KZ_FAR;
    for (size_t at = 0; at <= length; at++)
        row[at] = at;
    for (size_t line = 1; *a; line++, a++) {
        size_t corner = row[0];
        row[0] = line;
        for (size_t at = 1; at <= length; at++) {
            size_t changed = corner + (*a != b[at - 1]);
            corner = row[at];
            row[at] = least(changed, least(row[at], row[at - 1]) + 1);
        }
    }
    return row[length];
}

enum { NEAR = 2 };

KzNear kz_near(const char *word)
{
    return (KzNear){.word = word, .far = NEAR + 1};
}

void kz_try_near(KzNear *near, const char *name)
{
    size_t far = kz_letters_apart(near->word, name);
    if (far < near->far)
        *near = (KzNear){.word = near->word, .best = name, .far = far};
}
