/* What each number that is told means: what was done, what Windows does, and how it is mended. The rows are those of docs/TOLD.md, which the Makefile lists. */
#include "run/explain.h"

#include "host.h"
#include "core/messages.h"

#include <stdlib.h>

/* Of a limit: where Kazdrin differs, what Windows does there, and what to do here. */
typedef struct {
    const char *id, *done, *windows, *mend;
} Meaning;

static const Meaning meanings[] = {
#include "told.inc"
};

enum { COUNT = sizeof meanings / sizeof meanings[0] };

static void put_row(const Meaning *one)
{
    printf("| %s | %s | %s | %s |\n", one->id, one->done, one->windows, one->mend);
}

static void put_words(const Meaning *one)
{
    bool is_limit = KZ_IS_LIMIT(atoi(one->id + 2));
    printf("%s, a %s: %s\non Windows: %s\n%s: %s\n", one->id, is_limit ? "limit of Kazdrin" : "mistake", one->done, one->windows, is_limit ? "here" : "to mend it", one->mend);
}

static const Meaning *meaning_of(const char *id)
{
    for (size_t at = 0; at < COUNT; at++)
        if (strcmp(meanings[at].id, id) == 0)
            return &meanings[at];
    return NULL;
}

bool kz_is_explained(const char *id)
{
    return meaning_of(id) != NULL;
}

void kz_each_meaning(void (*say)(const char *id, const char *done, const char *windows, const char *mend, bool is_limit))
{
    for (size_t at = 0; at < COUNT; at++)
        say(meanings[at].id, meanings[at].done, meanings[at].windows, meanings[at].mend, KZ_IS_LIMIT(atoi(meanings[at].id + 2)));
}

bool kz_explain(const char *id)
{
    const Meaning *one = meaning_of(id);
    if (one)
        put_words(one);
    for (size_t at = 0; at < COUNT && strcmp(id, "all") == 0; at++)
        put_row(&meanings[at]);
    return one || strcmp(id, "all") == 0;
}
