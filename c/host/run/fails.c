/* What is to fail: the Nth call of a kind from here on. */
#include "run/fails.h"

#include <stdlib.h>
#include <string.h>

static const struct {
    const char *word;
    KzChoice what;
} kinds[] = {{"device", KZ_CHOICE_DEVICE}, {"paging", KZ_CHOICE_PAGING}, {"pool", KZ_CHOICE_POOL}, {"context", KZ_CHOICE_CONTEXT}, {"name", KZ_CHOICE_NAME}};

enum { KINDS = sizeof kinds / sizeof kinds[0] };
static unsigned after[KINDS]; /* how many calls are left up to that one; 0 if there is none */

void kz_forget_fails(void)
{
    memset(after, 0, sizeof after);
}

bool kz_fails(KzChoice what)
{
    for (size_t at = 0; at < KINDS; at++)
        if (after[at] && kinds[at].what == what)
            return --after[at] == 0;
    return false;
}

bool kz_fail(char **words)
{
    char *end;
    unsigned long number = strtoul(words[2], &end, 10);
    for (size_t at = 0; at < KINDS && number && number < 1000000 && !*end; at++)
        if (strcmp(kinds[at].word, words[1]) == 0) {
            after[at] = (unsigned)number;
            return true;
        }
    return false;
}
