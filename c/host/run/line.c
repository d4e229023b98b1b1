/* What is wrong with a line that is no request: there is none of its first word, or too few or too many words stand behind that. */
#include "run/line.h"

#include "core/memory.h"
#include "core/near.h"
#include "run/read.h"
#include "run/runfile.h"
#include "run/words.h"

#include <stdlib.h>

static const char *nearest(const char *word)
{
    KzNear near = kz_near(word);
    for (size_t at = 0; kz_request_at(at); at++)
        kz_try_near(&near, kz_request_at(at)->name);
    return near.best;
}

/* A line of a scenario, which another program runs. */
static bool is_of_scenario(const char *word)
{
    return strcmp(word, "client") == 0 || strcmp(word, "finally:") == 0;
}

static void say_count(const KzRequest *one, char *why, size_t size)
{
    size_t from = one->least - 1, to = one->most - 1;
    if (from == to)
        snprintf(why, size, ": %s has %zu word%s behind it", one->name, from, from == 1 ? "" : "s");
    else
        snprintf(why, size, ": %s has %zu to %zu words behind it", one->name, from, to);
}

/* The word at that place of a request that takes a handle, or of one that doesn't; false if it is another request, or the word is no name. `$` is a client's last handle. */
static bool name_in(const char *line, bool takes_handle, size_t back, char *name, size_t size)
{
    char *copy = kz_copy_of(line), *words[KZ_WORDS + 1];
    size_t count = kz_split(copy, words);
    const KzRequest *one = count ? kz_request_of(words[0]) : NULL;
    size_t at = takes_handle ? 1 : count - back;
    bool is_there = one && one->takes_handle == takes_handle && at < count && kz_is_name(words[at]) && words[at][0] != '$' && (takes_handle || (at > 1 && strcmp(words[at - 1], "as") == 0));
    snprintf(name, size, "%s", is_there ? words[at] : "");
    free(copy);
    return is_there;
}

bool kz_takes_name(const char *request, char *name, size_t size)
{
    return name_in(request, true, 0, name, size);
}

bool kz_gives_name(const char *request, char *name, size_t size)
{
    return name_in(request, false, 1, name, size);
}

bool kz_is_request(const char *line, char *why, size_t size)
{
    char *copy = kz_copy_of(line), *words[KZ_WORDS + 1];
    size_t count = kz_split(copy, words);
    const KzRequest *one = count ? kz_request_of(words[0]) : NULL;
    bool is_silent = count == 0 || words[0][0] == '#' || strcmp(words[0], "expect") == 0;
    bool is_right = is_silent || (one && count >= one->least && count <= one->most);
    const char *near = one || is_silent ? NULL : nearest(words[0]);
    *why = 0;
    if (!is_right && one)
        say_count(one, why, size);
    else if (!is_right && is_of_scenario(words[0]))
        snprintf(why, size, ": this is a scenario: --load plays it by threads, and a program that c/build.sh --explore builds plays it in every order");
    else if (!is_right)
        snprintf(why, size, ": there is no request %.40s%s%s", words[0], near ? "; the nearest is " : "", near ? near : "");
    free(copy);
    return is_right;
}
