/* Calls of drivers that are refused, each once for its line and its status, on the standard error: no mistake, but where a driver that does nothing may have stopped. */
#include "run/refusal.h"

#include "core/memory.h"
#include "core/client.h"
#include "core/module.h"
#include "core/place.h"
#include "core/source.h"
#include "run/statusnames.h"

#include <stdlib.h>

typedef struct Refusal {
    struct Refusal *next;
    const void *from;
    NTSTATUS status;
} Refusal;

struct KzRefusalState {
    Refusal *first;
};

/* The calls of the kit that answer a status, in the order of their names: the Makefile lists them by its headers. */
static const char *const answering[] = {
#include "answering.inc"
};

static int compare(const void *name, const void *call)
{
    return strcmp(name, *(const char *const *)call);
}

static bool is_new(const void *from, NTSTATUS status)
{
    Refusal *one = kz.refusal->first;
    while (one && (one->from != from || one->status != status))
        one = one->next;
    if (one)
        return false;
    one = kz_memory(sizeof *one);
    *one = (Refusal){.next = kz.refusal->first, .from = from, .status = status};
    kz.refusal->first = one;
    return true;
}

void kz_note_answer(const char *call, NTSTATUS status)
{
    char marked[1200], line[1200], place[256], source[420];
    const char *name = kz_status_name((uint32_t)status);
    if (NT_SUCCESS(status) || !bsearch(call, answering, sizeof answering / sizeof answering[0], sizeof answering[0], compare) || !is_new(kz_me->place.from, status))
        return;
    kz_place_text(place, sizeof place);
    kz_source_text(source, sizeof source, call);
    snprintf(marked, sizeof marked, "refused %s %s (0x%08x): %s%s\n", call, name ? name : "a status", (unsigned)status, place, source);
    kz_readable(line, sizeof line, marked);
    fputs(line, stderr);
}

static void free_refusals(void)
{
    while (kz.refusal->first) {
        Refusal *one = kz.refusal->first;
        kz.refusal->first = one->next;
        free(one);
    }
}

const KzModule kz_refusal_module = {KZ_STATE(refusal), .free = free_refusals};
