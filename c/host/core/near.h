/* How near a mistyped word is to one that is known. */
#ifndef KZ_CORE_NEAR_H
#define KZ_CORE_NEAR_H

#include <stddef.h>

enum { KZ_FAR = 64 };
/* The one of those that are tried that is nearest to a word, if it is two letters away at most; NULL if there is none. */
typedef struct {
    const char *word, *best;
    size_t far;
} KzNear;

KzNear kz_near(const char *word);
void kz_try_near(KzNear *near, const char *name);

/* How many letters have to be added, left out or changed to make one of two words of the other; KZ_FAR for words that are too long. */
size_t kz_letters_apart(const char *a, const char *b);

#endif
