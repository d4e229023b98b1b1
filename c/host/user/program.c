/* The life of programs: a process begins by a request, and ends with its main or by ExitProcess. Its other threads end where they next come out of a call. */
#include "user/program.h"

#include "cache/cache.h"

#include "core/beside.h"
#include "core/client.h"
#include "core/memory.h"
#include "core/module.h"
#include "core/said.h"
#include "core/told.h"
#include "kit/cancel.h"
#include "kit/fltcreate.h"
#include "kit/notify.h"
#include "user/object.h"

#include <stdlib.h>

/* A program without any has no list. */
extern const KzProgram kz_programs[] __attribute__((weak));
extern const size_t kz_programs_count __attribute__((weak));

enum { FIRST_PROCESS = 1100, STEP = 100 };

struct KzProgramState {
    KzProcess *first;
    uint64_t count; /* of all that began */
};

KzProcess *kz_processes(void)
{
    return kz.program->first;
}

KzUser *kz_user(void)
{
    return kz_me->beside ? kz_me->beside->given : NULL;
}

/* ---- Waiting. */
typedef struct {
    KzCan *can;
    void *what;
    KzProcess *process;
} Wait;

static bool can_go(void *given)
{
    Wait *one = given;
    return one->process->is_over || (one->can && one->can(one->what));
}

bool kz_user_waits(KzCan *can, void *what, uint32_t milliseconds, const char *text)
{
    Wait wait = {can, what, kz_user()->process};
    kz_wait_for(can_go, &wait, milliseconds == UINT32_MAX ? -1 : (int64_t)milliseconds, text);
    return can && can(what);
}

void kz_go_on_or_end(void)
{
    KzUser *me = kz_user();
    if (me->process->is_over && kz_me->inside == 0)
        longjmp(me->end, 1);
}

/* ---- Threads. */
static void end_process(KzProcess *process)
{
    KZ_INSIDE();
    if (process->is_over)
        return;
    process->is_over = true;
    kz.changes++;
    kz_cancel_of(process->id);
    kz_unmap_all(process);
    while (process->objects)
        kz_close_object(process->objects);
    kz_close_handles_of(process->id);
    kz_end_process(process->id);
}

static void live(void *given)
{
    KzUser *me = given;
    if (setjmp(me->end) == 0) {
        if (me->start)
            me->result = me->start(me->parameter);
        else
            me->result = (uint32_t)me->process->program->entry(me->process->count, me->process->program->is_wide ? (void *)me->process->wide : (void *)me->process->words);
    }
    if (!me->start)
        end_process(me->process);
    KZ_INSIDE();
    if (me->start)
        kz_thread_ends(kz_me->process, kz_me->thread);
    me->has_ended = true;
    me->process->threads--;
    kz.changes++;
}

KzUser *kz_new_user(KzProcess *process, uint32_t (*start)(void *), void *parameter)
{
    KzUser *made = kz_memory(sizeof *made);
    *made = (KzUser){.next = process->users, .process = process, .start = start, .parameter = parameter};
    made->thread = kz_new_thread(process->program->name, process->id, process->id + 4 + 4 * process->threads_made, live, made);
    if (!made->thread) {
        free(made);
        return NULL;
    }
    process->users = made;
    process->threads++;
    process->threads_made++;
    if (start)
        kz_thread_begins(process->id, process->id + 4 * process->threads_made);
    return made;
}

/* ---- Requests. */
static WCHAR *wide_of(const char *text)
{
    WCHAR *made = kz_memory((strlen(text) + 1) * sizeof *made);
    for (size_t at = 0; text[at]; at++)
        made[at] = (UCHAR)text[at];
    return made;
}

static void add_word(KzProcess *process, const char *word)
{
    if (process->count == 15)
        return;
    process->wide[process->count] = wide_of(word);
    process->words[process->count++] = kz_copy_of(word);
}

/* Behind the end of its threads. */
static void free_process(KzProcess *process)
{
    for (int at = 0; at < process->count; at++) {
        free(process->words[at]);
        free(process->wide[at]);
    }
    while (process->users) {
        KzUser *one = process->users;
        process->users = one->next;
        free(one);
    }
    free(process);
}

uint32_t kz_start_program(const char *name, char **words, uint64_t *process, NTSTATUS *other)
{
    size_t at = 0, count = &kz_programs_count ? kz_programs_count : 0;
    while (at < count && strcmp(kz_programs[at].name, name) != 0)
        at++;
    if (at == count)
        return KZS_FILE_NOT_FOUND;
    char image[128];
    snprintf(image, sizeof image, "programs/%.60s.exe", name);
    uint32_t status = kz_begin_process(FIRST_PROCESS + STEP * kz.program->count, kz_me->process, image, other);
    if (status != KZS_OK)
        return status;
    KzProcess *made = kz_memory(sizeof *made);
    *made = (KzProcess){.next = kz.program->first, .program = &kz_programs[at], .id = FIRST_PROCESS + STEP * kz.program->count++};
    add_word(made, name);
    for (; *words; words++)
        add_word(made, *words);
    if (!kz_new_user(made, NULL, NULL)) {
        kz_tell(KZM_THREAD, "start", "more than %u threads run next to the requests: the program isn't started", KZ_THREADS);
        kz_end_process(made->id);
        free_process(made);
        return KZS_TOO_MANY;
    }
    kz.program->first = made;
    *process = made->id;
    return KZS_OK;
}

/* The words are a line of its console. */
uint32_t kz_type(const char *name, char **words)
{
    KzProcess *one = kz.program->first;
    while (one && (one->is_over || strcmp(one->program->name, name) != 0))
        one = one->next;
    if (!one)
        return KZS_FILE_NOT_FOUND;
    for (; *words; words++) {
        size_t used = strlen(one->typed);
        snprintf(one->typed + used, sizeof one->typed - used, "%s%s", *words, words[1] ? " " : "\n");
    }
    kz.changes++;
    return KZS_OK;
}

/* At the end of a run all end: each wait is over, and no thread comes out of a call. */
void kz_end_programs(void)
{
    while (kz_run_threads())
        ;
    for (KzProcess *one = kz.program->first; one; one = one->next)
        end_process(one);
    for (unsigned round = 0; round < 1000 && kz_run_threads(); round++)
        ;
    for (KzProcess *one = kz.program->first; one; one = one->next)
        if (one->threads)
            kz_say(KZ_SAID_ELSE, "the program %s doesn't end\n", one->program->name);
}

static void free_programs(void)
{
    while (kz.program->first) {
        KzProcess *one = kz.program->first;
        kz.program->first = one->next;
        if (!one->threads)
            free_process(one);
    }
}

const KzModule kz_program_module = {KZ_STATE(program), .free = free_programs};
