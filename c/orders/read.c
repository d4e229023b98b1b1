/* How words are read: a letter for each kind. First all words are read, then names and altitudes and paths are looked at, then ids are looked up. */
#include "read.h"

#include "wire/frame.h"

static bool place_of(OrText word, const char *const *names, uint8_t *at)
{
    for (*at = 0; names[*at]; ++*at)
        if (or_is(word, names[*at]))
            return true;
    return false;
}

/* Numbers of major functions without an event of their own. */
static bool is_major(uint64_t number)
{
    static const uint8_t majors[] = {1, 5, 6, 7, 8, 10, 11, 12, 13, 14, 15, 16, 17, 19, 20, 21, 22, 23, 24, 25, 26, 27, 236, 237, 238, 239, 240, 241, 242, 243, 249, 250, 251, 252, 253, 254, 255};
    return number < 256 && memchr(majors, (int)number, sizeof majors);
}

static bool read_number(OrAsked *asked, char letter, OrText word)
{
    uint64_t number;
    if (!or_number(word, &number) || (letter == 'M' && !is_major(number)))
        return false;
    if (letter == 'N')
        asked->event.offset = number;
    else if (letter == 'L')
        asked->event.len = number > UINT32_MAX ? UINT32_MAX : (uint32_t)number;
    else if (letter == 'B')
        asked->event.number = number;
    else
        asked->event.mode = (uint8_t)number;
    return true;
}

static bool read_choice(OrAsked *asked, char letter, OrText word)
{
    static const char *const answers[] = {"no", "yes", NULL}, *const kinds[] = {"volume", "instance", "stream", "handle", "file", NULL}, *const modes[] = {"keep", "replace", NULL},
                      *const creates[] = {"existing", "new", "always", NULL}, *const ends[] = {"done", "more", NULL};
    switch (letter) {
    case 'y':
        return place_of(word, answers, &asked->event.flag);
    case 'k':
        return place_of(word, kinds, &asked->event.kind);
    case 'm':
        return place_of(word, modes, &asked->event.mode);
    case 'c':
        return place_of(word, creates, &asked->event.mode);
    default:
        return place_of(word, ends, &asked->event.mode);
    }
}

/* The highest number says that there is no id: where it is spelled it stands for the one before, which is never given either. */
bool or_read_id(char letter, OrText word, uint64_t *id)
{
    bool is_read = or_id(word, letter, id);
    *id -= *id == OR_NONE;
    return is_read;
}

/* `with`, `none` and `complete S`; behind a plan and a preoperation `sync` and `pend` too, and behind the latter `with C`. */
static size_t read_verdict(OrAsked *asked, char letter, const OrText *words, size_t count)
{
    static const char *const verdicts[] = {"with", "sync", "none", "complete", "pend", NULL};
    uint64_t status;
    if (!count || !place_of(words[0], verdicts, &asked->event.mode))
        return 0;
    if (asked->event.mode == KZV_COMPLETE) {
        if (count != 2 || !or_number(words[1], &status) || status >= KZS_BUSY)
            return 0;
        asked->event.status = (uint8_t)status;
        return 2;
    }
    if (letter == 'w' && asked->event.mode == KZV_WITH_CALLBACK && count == 2)
        return or_read_id('c', words[1], &asked->context) ? 2 : 0;
    return letter == 'v' && (asked->event.mode == KZV_SYNCHRONIZE || asked->event.mode == KZV_PENDING) ? 0 : 1;
}

static bool read_options(OrAsked *asked, OrText word, bool is_given)
{
    bool is_bare = is_given && or_is(word, "bare"), is_pre = is_given && or_is(word, "only-pre"), is_post = is_given && or_is(word, "only-post");
    asked->event.pre = is_post ? 0 : UINT64_MAX;
    asked->event.post = is_pre ? 0 : UINT64_MAX;
    asked->event.contexts = is_bare ? 0 : UINT8_MAX;
    asked->event.query = asked->event.unload = !is_bare;
    return !is_given || is_bare || is_pre || is_post;
}

static uint64_t *id_of(OrAsked *asked, char letter)
{
    switch (letter) {
    case 'F':
        return &asked->filter;
    case 'V':
        return &asked->volume;
    case 'I':
        return &asked->instance;
    case 'H':
    case 'h':
        return &asked->handle;
    case 'O':
        return &asked->operation;
    case 'C':
        return &asked->context;
    case 'W':
        return &asked->worker;
    default:
        return NULL;
    }
}

static bool read_text(OrAsked *asked, char letter, OrText word)
{
    *(letter == 'n' ? &asked->name : letter == 'a' ? &asked->altitude : &asked->path) = word;
    return true;
}

/* How many words the letter took, which must have been read; optional ones may be none. */
static bool read_letter(OrAsked *asked, char letter, const OrText *words, size_t count, size_t *taken)
{
    uint64_t *id = id_of(asked, letter);
    OrText word = count ? words[0] : or_text("");
    if (strchr("vuw", letter)) {
        *taken = read_verdict(asked, letter, words, count);
        return *taken > 0;
    }
    *taken = count > 0;
    if (letter == 'r')
        return read_options(asked, word, count > 0);
    if (!count)
        return letter == 'o' || letter == 'h';
    if (letter == 'h' || letter == 'o')
        asked->event.flag = 1;
    if (letter == 'o')
        return or_is(word, "old");
    if (id)
        return or_read_id(letter == 'h' ? 'h' : (char)(letter - 'A' + 'a'), word, id);
    if (letter == 'X')
        return or_hex(word, asked->bytes, &asked->length);
    return strchr("NLBM", letter) ? read_number(asked, letter, word) : strchr("nap", letter) ? read_text(asked, letter, word) : read_choice(asked, letter, word);
}

bool or_read(OrAsked *asked, const char *reads, const OrText *words, size_t count)
{
    size_t taken;
    for (; *reads; reads++) {
        if (!read_letter(asked, *reads, words, count, &taken))
            return false;
        words += taken;
        count -= taken;
    }
    return !count;
}

uint32_t or_misnamed(const OrAsked *asked)
{
    if (asked->name.at && !or_is_name(asked->name))
        return KZS_BAD_NAME;
    if (asked->altitude.at && !or_is_altitude(asked->altitude))
        return KZS_BAD_ALTITUDE;
    return asked->path.at && !is_path((const uint8_t *)asked->path.at, asked->path.length) ? KZS_BAD_PATH : 0;
}

static bool is_lost(uint64_t id, uint64_t count)
{
    return id != OR_NONE && id >= count;
}

/* Puts the ids into the event, once each is known to have been given. */
uint32_t or_look_up(const OrScript *script, OrAsked *asked)
{
    if (is_lost(asked->filter, script->filters.count))
        return KZS_NO_FILTER;
    if (is_lost(asked->volume, script->volumes))
        return KZS_NO_VOLUME;
    if (is_lost(asked->handle, script->handles.count))
        return KZS_NO_HANDLE;
    if (is_lost(asked->instance, script->instances.count))
        return KZS_NO_INSTANCE;
    if (is_lost(asked->operation, script->operations.count))
        return KZS_WRONG_STEP;
    if (is_lost(asked->context, script->contexts.count))
        return KZS_NOT_HELD;
    if (is_lost(asked->worker, OR_WORKERS))
        return KZS_WRONG_STEP;
    asked->event.filter = (uint8_t)asked->filter;
    asked->event.volume = (uint8_t)asked->volume;
    asked->event.handle = asked->handle;
    asked->event.instance = (uint16_t)asked->instance;
    asked->event.operation = asked->operation;
    asked->event.worker = (uint8_t)asked->worker;
    if (asked->context != OR_NONE) {
        asked->event.slot = script->contexts.at[asked->context].slot;
        asked->event.generation = script->contexts.at[asked->context].generation;
    }
    return 0;
}
