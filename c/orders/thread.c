/* A thread's next line, and where its answer leads. */
#include "world.h"

#include <stdarg.h>

static uint64_t folded(uint64_t value, uint64_t by)
{
    unsigned __int128 product = (unsigned __int128)value * by;
    return (uint64_t)product ^ (uint64_t)(product >> 64);
}

/* Two checksums beside each other; the size counts, so that pieces keep their ends. */
void or_add_key(OrKey *key, const void *bytes, size_t size)
{
    const char *at = bytes;
    uint64_t word = size;
    size_t left = size;
    do {
        key->one = folded(key->one ^ word ^ 0xa0761d6478bd642fULL, 0xe7037ed1a0b428dbULL) + 0x9e3779b97f4a7c15ULL;
        key->other = folded(key->other ^ word ^ 0x8ebc6af09c88c6e3ULL, 0x589965cc75374cc3ULL) + 0xd6e8feb86659fd93ULL;
        size_t piece = left < sizeof word ? left : sizeof word;
        word = 0;
        memcpy(&word, at, piece);
        at += piece;
        left -= piece;
    } while (left || word);
}

void or_begin_thread(OrThread *thread, const OrRoutine *routine)
{
    memset(thread, 0, sizeof *thread);
    thread->routine = routine;
}

static void keep(char *room, size_t size, OrText text)
{
    size_t length = text.length < size ? text.length : size - 1;
    memcpy(room, text.at, length);
    room[length] = 0;
}

static size_t put(char *room, size_t size, size_t at, OrText text)
{
    size_t length = text.length < size - at ? text.length : size - at;
    memcpy(room + at, text.at, length);
    return at + length;
}

static const OrThread *named(const OrWorld *world, OrText name)
{
    for (size_t at = 0; at < world->scenario->threads.count; at++)
        if (or_same(world->threads[at].routine->name, name))
            return &world->threads[at];
    return NULL;
}

/* `W` is the worker, `$o` the thread's own last operation, `$NAME.o` that of another one. What isn't there yet stays as it stands. */
static OrText word_of(const OrWorld *world, const OrThread *thread, OrText word, OrText worker)
{
    if (or_is(word, "W"))
        return worker;
    if (word.length < 2 || *word.at != '$')
        return word;
    OrText name = {word.at + 1, word.length - 1};
    const char *point = memrchr(name.at, '.', name.length);
    if (point) {
        thread = named(world, (OrText){name.at, (size_t)(point - name.at)});
        name = (OrText){point + 1, (size_t)(name.at + name.length - point - 1)};
    }
    const char *told = thread && name.length == 1 && !(*name.at & 0x80) ? thread->told[(int)*name.at] : "";
    return *told ? or_text(told) : word;
}

static OrText composed(const OrWorld *world, const OrThread *thread, OrText line, OrText worker, char *room, size_t size)
{
    size_t at = 0;
    bool is_more = true;
    while (is_more) {
        is_more = memchr(line.at, ' ', line.length) != NULL;
        at = put(room, size, at, word_of(world, thread, or_cut(&line, ' '), worker));
        at = is_more ? put(room, size, at, or_text(" ")) : at;
    }
    return (OrText){room, at};
}

static bool is_go(OrText line, OrText *worker, OrText *operation)
{
    OrText word = or_cut(&line, ' ');
    *worker = or_cut(&line, ' ');
    *operation = line;
    return or_is(word, "go") && line.at > worker->at + worker->length && !memchr(line.at, ' ', line.length);
}

static OrText said(char *room, size_t size, const char *format, ...) __attribute__((format(printf, 3, 4)));
static OrText said(char *room, size_t size, const char *format, ...)
{
    va_list words;
    va_start(words, format);
    int length = vsnprintf(room, size, format, words);
    va_end(words);
    return (OrText){room, (size_t)length < size ? (size_t)length : size - 1};
}

static OrText own_line(const OrWorld *world, const OrThread *thread, char *room, size_t size)
{
    OrText line = thread->routine->lines[thread->at].text, worker, operation;
    if (!is_go(line, &worker, &operation))
        return composed(world, thread, line, or_text(""), room, size);
    operation = word_of(world, thread, operation, worker);
    return said(room, size, "next %.*s %.*s", (int)worker.length, worker.at, (int)operation.length, operation.at);
}

/* Of an instance without such a callback. */
static OrText planned(const OrThread *thread, OrText plan, char *room, size_t size)
{
    if (thread->is_post)
        return said(room, size, "post %.*s done", (int)thread->worker.length, thread->worker.at);
    return said(room, size, "pre %.*s %.*s", (int)thread->worker.length, thread->worker.at, (int)plan.length, plan.at);
}

OrText or_line_of(const OrWorld *world, const OrThread *thread, char *room, size_t size)
{
    switch (thread->turn) {
    case OR_LINE:
        return own_line(world, thread, room, size);
    case OR_NEXT:
        return said(room, size, "next %.*s %.*s", (int)thread->worker.length, thread->worker.at, (int)thread->operation.length, thread->operation.at);
    case OR_CALLBACK:
        return composed(world, thread, thread->callback->lines[thread->in_callback].text, thread->worker, room, size);
    case OR_CALLBACK_PLANNED:
        return planned(thread, or_plan(world->scenario, or_text(thread->instance)), room, size);
    case OR_CALL:
        return said(room, size, "base %.*s", (int)thread->worker.length, thread->worker.at);
    case OR_COLLECT:
        return said(room, size, "collect %.*s", (int)thread->operation.length, thread->operation.at);
    default:
        return (OrText){NULL, 0};
    }
}

/* Where its line stands in the file. */
unsigned or_number_of(const OrThread *thread)
{
    return thread->turn == OR_CALLBACK ? thread->callback->lines[thread->in_callback].number : thread->routine->lines[thread->at].number;
}

static void advance(OrThread *thread)
{
    thread->turn = OR_LINE;
    if (++thread->at < thread->routine->count)
        return;
    thread->at = 0;
    if (!thread->routine->repeats)
        thread->turn = OR_OVER;
}

/* What `next` gave in a `go`. */
static void given(const OrWorld *world, OrThread *thread, OrText answer)
{
    OrText instance = answer, word = or_cut(&instance, ' ');
    bool is_pre = or_is(word, "pre");
    if (is_pre || or_is(word, "post") || or_is(word, "drain")) {
        thread->callback = or_callback(world->scenario, instance, is_pre ? "pre" : "post", or_verb(world, thread->operation));
        thread->turn = thread->callback ? OR_CALLBACK : OR_CALLBACK_PLANNED;
        thread->in_callback = 0;
        thread->is_post = !is_pre;
        keep(thread->instance, sizeof thread->instance, instance);
    } else if (or_is(answer, "base")) {
        thread->turn = OR_CALL;
    } else if (or_is(answer, "done")) {
        thread->turn = OR_COLLECT;
    } else if (or_is(answer, "moved")) {
        thread->turn = OR_NEXT;
    } else {
        advance(thread);
    }
}

/* A create that succeeded gave a handle. */
static void collected(const OrWorld *world, OrThread *thread, OrText answer)
{
    OrText rest = answer, reply = or_cut(&rest, ' '), status = or_cut(&rest, ' '), handle = or_cut(&rest, ' ');
    if (or_is(reply, "reply") && or_is(status, "0") && or_is(or_verb(world, thread->operation), "create"))
        snprintf(thread->told['h'], sizeof thread->told['h'], "h%.*s", (int)handle.length, handle.at);
    advance(thread);
}

static void learn(OrThread *thread, OrText line, OrText answer)
{
    OrText rest = answer, ok = or_cut(&rest, ' '), id = or_cut(&rest, ' ');
    or_add_key(&thread->seen, line.at, line.length);
    or_add_key(&thread->seen, answer.at, answer.length);
    if (or_is(ok, "ok") && id.length && !(*id.at & 0x80))
        keep(thread->told[(int)*id.at], sizeof thread->told[0], id);
}

/* The operation is the one that it is now, whatever another thread begins. */
static void begin_go(const OrWorld *world, OrThread *thread, OrText worker, OrText operation)
{
    OrText word = word_of(world, thread, operation, worker);
    thread->worker = worker;
    thread->operation = word;
    if (word.at != operation.at && word.at != worker.at) {
        keep(thread->begun, sizeof thread->begun, word);
        thread->operation = or_text(thread->begun);
    }
}

void or_took(const OrWorld *world, OrThread *thread, OrText line, OrText answer)
{
    OrText worker, operation;
    learn(thread, line, answer);
    switch (thread->turn) {
    case OR_LINE:
        if (!is_go(thread->routine->lines[thread->at].text, &worker, &operation))
            return advance(thread);
        begin_go(world, thread, worker, operation);
        return given(world, thread, answer);
    case OR_NEXT:
        return given(world, thread, answer);
    case OR_CALLBACK:
        thread->turn = ++thread->in_callback < thread->callback->count ? OR_CALLBACK : OR_NEXT;
        return;
    case OR_COLLECT:
        return collected(world, thread, answer);
    default:
        thread->turn = OR_NEXT;
    }
}
