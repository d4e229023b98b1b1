/* The commands of the script language (docs/SCRIPT.md): how each is read, which event it makes, and how that is told. */
#include "read.h"

typedef enum { DONE, FILTER, VOLUME, OPERATION, CONTEXT, SET, OLD, BODY, NUMBER, DUE, DRAINED, DROPPED } Says;

typedef struct {
    const char *word, *reads;
    uint32_t event;
    Says says;
    void (*act)(OrScript *script, OrAsked *asked); /* in place of the event */
} Command;

static void say_context(OrScript *script, const char *word, const KazdrinTold *told)
{
    uint64_t number = or_context_of(script, told->slot, told->generation);
    if (number == OR_NONE)
        or_refuse(script, KZS_NOT_HELD, 0);
    else
        or_say(script, "%s c%llu", word, (unsigned long long)number);
}

static void say_id(OrScript *script, const char *word, uint64_t number)
{
    or_say(script, "%s%llu", word, (unsigned long long)number);
}

static void say(OrScript *script, Says says, const KazdrinTold *told)
{
    switch (says) {
    case FILTER:
        return say_id(script, "ok f", told->filter);
    case VOLUME:
        return say_id(script, "ok v", told->volume);
    case OPERATION:
        return say_id(script, "ok o", told->operation);
    case NUMBER:
        return say_id(script, "ok ", told->number);
    case BODY:
        or_say(script, "body ");
        return or_say_bytes(script, told->length);
    case DUE:
        return told->has ? say_context(script, "cleanup", told) : or_say(script, "none");
    case DRAINED:
        return told->action ? say_id(script, "drain o", told->operation) : or_say(script, "none");
    case DROPPED:
        return told->has ? say_id(script, "ok h", told->handle) : or_say(script, "none");
    default:
        return says != DONE && told->has ? say_context(script, "ok", told) : or_say(script, "ok");
    }
}

/* The events by which a callback or a routine returns. */
static bool is_return(uint32_t event)
{
    return event == KZE_SETUP_DONE || event == KZE_QUERY_RETURNED || event == KZE_START_RETURNED || event == KZE_DRAIN_DONE || event == KZE_COMPLETE_RETURNED || event == KZE_UNLOAD_RETURNED
        || event == KZE_ROUTINE_RETURNED || event == KZE_CLEANED;
}

static void make(OrScript *script, const OrAsked *asked, Says says)
{
    KazdrinTold told = {0};
    uint32_t status = or_step(script, asked, &told);
    if (!status)
        or_note(script, asked, &told);
    if (status != KZS_WRONG_STEP && is_return(asked->event.event))
        or_came_back(script, asked);
    if (!status)
        say(script, says, &told);
    else if (status == KZS_ALREADY_DEFINED && told.has)
        say_context(script, "no 22", &told);
    else
        or_refuse(script, status, told.number);
}

/* `setup`: the worker is in its setup callback. */
static uint32_t set_up(OrScript *script, const OrAsked *asked, KazdrinTold *told)
{
    uint32_t status = kazdrin_attach(&script->session, &asked->event, (const uint8_t *)asked->name.at, asked->name.length, (const uint8_t *)asked->altitude.at, asked->altitude.length, told,
        script->bytes, OR_BYTES);
    if (!status)
        or_note_attached(script, asked, told->instance);
    return status;
}

static void setup(OrScript *script, OrAsked *asked)
{
    KazdrinTold told = {0};
    uint32_t status = set_up(script, asked, &told);
    if (status)
        or_refuse(script, status, 0);
    else
        say_id(script, "ok i", told.instance);
}

/* Worker 0 attaches, and accepts. */
static void attach(OrScript *script, OrAsked *asked)
{
    KazdrinTold told = {0}, done;
    OrAsked accepts = {.event = {.event = KZE_SETUP_DONE, .flag = 1}};
    asked->event.worker = 0;
    uint32_t status = set_up(script, asked, &told);
    if (!status) {
        status = or_step(script, &accepts, &done);
        or_came_back(script, &accepts);
    }
    if (status)
        or_refuse(script, status, 0);
    else
        say_id(script, "ok i", told.instance);
}

static void plan(OrScript *script, OrAsked *asked)
{
    script->instances.at[asked->instance].plan = asked->event;
    or_say(script, "ok");
}

static void phase(OrScript *script, OrAsked *asked)
{
    static const char *const phases[] = {"setup", "attached", "stopping", "completing", "emptying", "detached"};
    or_say(script, "%s", phases[or_phase(script, asked->instance)]);
}

static void flight(OrScript *script, OrAsked *asked)
{
    say_id(script, "flight ", script->instances.at[asked->instance].flight);
}

static void count(OrScript *script, OrAsked *asked)
{
    static const char *const lives[] = {[OR_LIVE] = "due", [OR_CLEANING] = "cleaning", [OR_CLEANED] = "cleaned"};
    const OrContext *context = &script->contexts.at[asked->context];
    or_count_references(script);
    if (context->references)
        say_id(script, "count ", context->references);
    else
        or_say(script, "%s", lives[context->life]);
}

static void leaks(OrScript *script, OrAsked *asked)
{
    (void)asked;
    say_id(script, "leaks ", or_leaks(script));
}

static void fail(OrScript *script, OrAsked *asked)
{
    if (asked->event.offset > script->calls)
        *OR_ADD(script->failing) = asked->event.offset;
    or_say(script, "ok");
}

static void failures(OrScript *script, OrAsked *asked)
{
    (void)asked;
    say_id(script, "failures ", script->failures);
}

/* The first are those that a filter may ask by itself, too. */
enum { REQUESTS = 14 };
static const Command commands[] = {
    {"list", "V", KZE_LIST, OPERATION, NULL},
    {"read", "HNL", KZE_READ, OPERATION, NULL},
    {"size", "H", KZE_QUERY_SIZE, OPERATION, NULL},
    {"querysize", "H", KZE_QUERY_SIZE, OPERATION, NULL},
    {"setsize", "HN", KZE_SET_SIZE, OPERATION, NULL},
    {"flush", "H", KZE_FLUSH, OPERATION, NULL},
    {"delete", "H", KZE_SET_DELETE, OPERATION, NULL},
    {"setdelete", "H", KZE_SET_DELETE, OPERATION, NULL},
    {"restore", "H", KZE_RESTORE, OPERATION, NULL},
    {"cleanup", "H", KZE_CLEANUP, OPERATION, NULL},
    {"close", "H", KZE_CLOSE, OPERATION, NULL},
    {"other", "HMN", KZE_OTHER, OPERATION, NULL},
    {"otherv", "VMN", KZE_ON_VOLUME, OPERATION, NULL},
    {"write", "HNX", KZE_WRITE, OPERATION, NULL},
    {"create", "Vpc", KZE_CREATE, OPERATION, NULL},
    {"load", "nr", KZE_REGISTER, FILTER, NULL},
    {"mount", "n", KZE_MOUNT, VOLUME, NULL},
    {"attach", "FVna", 0, DONE, attach},
    {"setup", "WFVna", 0, DONE, setup},
    {"setdone", "Wy", KZE_SETUP_DONE, DONE, NULL},
    {"next", "WO", 0, DONE, or_next},
    {"pre", "Ww", 0, DONE, or_pre},
    {"base", "W", 0, DONE, or_base},
    {"post", "Wd", 0, DONE, or_post},
    {"go", "WO", 0, DONE, or_go},
    {"plan", "Iu", 0, DONE, plan},
    {"collect", "O", 0, DONE, or_collect},
    {"resume", "WOv", KZE_RESUME_PRE, DONE, NULL},
    {"respost", "WO", KZE_RESUME_POST, DONE, NULL},
    {"alloc", "WkX", KZE_ALLOCATE, CONTEXT, NULL},
    {"set", "WCmo", KZE_SET, SET, NULL},
    {"get", "Wk", KZE_GET, CONTEXT, NULL},
    {"del", "Wko", KZE_DELETE, OLD, NULL},
    {"ref", "WC", KZE_REFERENCE, DONE, NULL},
    {"rel", "WC", KZE_RELEASE, DONE, NULL},
    {"body", "WC", KZE_READ_BODY, BODY, NULL},
    {"wbody", "WCX", KZE_WRITE_BODY, DONE, NULL},
    {"bump", "WCNB", KZE_BUMP, NUMBER, NULL},
    {"due", "W", KZE_TAKE_DUE, DUE, NULL},
    {"cleaned", "W", KZE_CLEANED, DONE, NULL},
    {"count", "C", 0, DONE, count},
    {"leaks", "", 0, DONE, leaks},
    {"query", "WI", KZE_ASK_DETACH, DONE, NULL},
    {"queried", "Wy", KZE_QUERY_RETURNED, DONE, NULL},
    {"start", "WI", KZE_START_TEARDOWN, DONE, NULL},
    {"started", "W", KZE_START_RETURNED, DONE, NULL},
    {"drain", "WI", KZE_DRAIN_TAKE, DRAINED, NULL},
    {"drained", "W", KZE_DRAIN_DONE, DONE, NULL},
    {"complete", "WI", KZE_COMPLETE_TEARDOWN, DONE, NULL},
    {"completed", "W", KZE_COMPLETE_RETURNED, DONE, NULL},
    {"finish", "I", KZE_FINISH, DONE, NULL},
    {"unload", "WF", KZE_ASK_UNLOAD, DONE, NULL},
    {"unloaded", "Wy", KZE_UNLOAD_RETURNED, DONE, NULL},
    {"emptyf", "F", KZE_EMPTY_FILTER, DONE, NULL},
    {"finishf", "F", KZE_FINISH_FILTER, DONE, NULL},
    {"dismount", "V", KZE_START_DISMOUNT, DONE, NULL},
    {"drop", "V", KZE_DROP_HANDLE, DROPPED, NULL},
    {"emptyv", "V", KZE_EMPTY_VOLUME, DONE, NULL},
    {"finishv", "V", KZE_FINISH_VOLUME, DONE, NULL},
    {"enter", "WIh", KZE_ENTER_ROUTINE, DONE, NULL},
    {"left", "W", KZE_ROUTINE_RETURNED, DONE, NULL},
    {"phase", "I", 0, DONE, phase},
    {"flight", "I", 0, DONE, flight},
    {"fail", "N", 0, DONE, fail},
    {"failures", "", 0, DONE, failures},
};

static const Command *command_of(OrText word, size_t count)
{
    for (size_t at = 0; at < count; at++)
        if (word.length && *word.at == *commands[at].word && or_is(word, commands[at].word))
            return &commands[at];
    return NULL;
}

/* Words that stand before a request of a filter's own, and how many there are. */
static size_t read_front(OrAsked *asked, const OrText *words, size_t count)
{
    uint64_t instance;
    bool is_below = or_is(words[0], "below"), is_at_base = or_is(words[0], "atbase");
    bool is_for_one = (is_below || is_at_base) && count > 1 && or_read_id('i', words[1], &instance);
    if (is_for_one) {
        asked->instance = instance;
        asked->event.kind = is_below ? KZB_BELOW : KZB_BASE_FOR;
    } else if (is_at_base)
        asked->event.kind = KZB_BASE;
    else if (or_is(words[0], "attop"))
        asked->event.kind = KZB_LATE;
    return is_for_one ? 2 : asked->event.kind != KZB_TOP;
}

/* `change_held W O`, and the words of a read, a setsize or an other without their handle: what these ask stands in the event's kind. */
static uint32_t change_held(OrScript *script, OrAsked *asked, const OrText *words, size_t count)
{
    const Command *command = count > 2 ? command_of(words[2], sizeof commands / sizeof *commands) : NULL;
    bool is_known = command && (command->event == KZE_READ || command->event == KZE_SET_SIZE || command->event == KZE_OTHER);
    if (!is_known || !or_read(asked, "WO", words, 2) || !or_read(asked, command->reads + 1, words + 3, count - 3))
        return KZS_BAD_REQUEST;
    asked->event.event = KZE_CHANGE_HELD;
    asked->event.kind = (uint8_t)command->event;
    uint32_t refusal = or_look_up(script, asked);
    if (!refusal)
        make(script, asked, DONE);
    return refusal;
}

static uint32_t perform(OrScript *script, const Command *command, OrAsked *asked)
{
    uint32_t refusal = or_misnamed(asked);
    refusal = refusal ? refusal : or_look_up(script, asked);
    if (refusal)
        return refusal;
    if (command->event == KZE_REGISTER || command->event == KZE_MOUNT || command->event == KZE_CREATE) {
        OrText text = command->event == KZE_CREATE ? asked->path : asked->name;
        asked->bytes = (uint8_t *)text.at;
        asked->length = text.length;
    }
    if (command->act)
        command->act(script, asked);
    else
        make(script, asked, command->says);
    return 0;
}

uint32_t or_do(OrScript *script, OrText *words, size_t count)
{
    uint8_t bytes[OR_LONGEST / 2];
    OrAsked asked = {.bytes = bytes, .filter = OR_NONE, .volume = OR_NONE, .instance = OR_NONE, .handle = OR_NONE, .operation = OR_NONE, .context = OR_NONE, .worker = OR_NONE};
    size_t front = read_front(&asked, words, count);
    if (or_is(words[0], "change_held"))
        return change_held(script, &asked, words + 1, count - 1);
    const Command *command = front < count ? command_of(words[front], front ? REQUESTS - 1 : sizeof commands / sizeof *commands) : NULL;
    if (!command || !or_read(&asked, command->reads, words + front + 1, count - front - 1))
        return KZS_BAD_REQUEST;
    asked.event.event = command->event;
    asked.event.flag |= asked.context != OR_NONE && command->act == or_pre;
    return perform(script, command, &asked);
}
