/* A run: how it begins, and what is looked at and given back at its end. */
#include "run/open.h"

#include "cache/paging.h"
#include "core/client.h"
#include "core/crash.h"
#include "core/late.h"
#include "core/module.h"
#include "core/piece.h"
#include "core/raise.h"
#include "core/said.h"
#include "core/told.h"
#include "manager/below.h"
#include "manager/filter.h"
#include "manager/mount.h"
#include "manager/operation.h"
#include "manager/perform.h"
#include "kit/names.h"
#include "user/program.h"
#include "run/fails.h"
#include "run/modules.h"
#include "run/observer.h"
#include "run/seen.h"

#include <stdlib.h>

KzCounts kz_counts(void)
{
    KazdrinCounts counts = {0};
    if (kazdrin_counts(&kz.manager, &(KazdrinEvent){0}, &counts) == KZS_OK) {
        kz.counts.born = counts.born;
        kz.counts.cleaned = counts.cleaned;
    }
    return kz.counts;
}

/* Outside of a run, too, a program may call the kit. */
static void __attribute__((constructor)) begin(void)
{
    kz.modules = kz_modules;
    kz_begin_modules();
}

int kz_open(const KzDriver *drivers, size_t count)
{
    kz_end_modules();
    kz = (KzHost){.drivers = drivers, .drivers_count = count, .modules = kz_modules, .observer = &kz_observer, .store = &kz_manager_store};
    kz.resumed_end = &kz.resumed;
    kz_begin_modules();
    kz_forget_notes();
    kz_forget_fails();
    kz_new_client(kz_me, "first", 0);
    kz_watch_crashes(kz_takes_fault);
    kz_watch_time();
    if (kazdrin_open(&kz.manager) != KZS_OK)
        return 1;
    uint64_t number;
    return kz_mount("v0", &number) == KZS_OK ? 0 : 1;
}

static void free_all(void)
{
    kz_free_modules();
    for (size_t at = 0; at < kz.filters_count; at++)
        free(kz.filters[at]);
    while (kz.refused) {
        PFLT_FILTER next = kz.refused->refused;
        free(kz.refused);
        kz.refused = next;
    }
    for (size_t at = 0; at < kz.volumes_count; at++)
        free(kz.volumes[at]);
    for (size_t at = 0; at < kz.instances_count; at++)
        free(kz.instances[at]);
    free(kz.instances);
    free(kz.unheard);
    kz.unheard = NULL;
    kz.unheard_count = 0;
    kz.instances = NULL;
    kz.filters_count = kz.volumes_count = kz.instances_count = 0;
}

/* All that is looked at once no request comes any more. */
void kz_end(void)
{
    kz_me->request = NULL;
    kz_me->line_number = 0;
    kz_end_caches(NULL);
    kz_settle();
    kz_unload_all();
    kz_end_programs();
    kz_tell_held();
    for (size_t at = 0; at < kz.filters_count; at++) {
        kz_check_all_memory(kz.filters[at]);
        kz_tell_names(kz.filters[at]);
        kz_tell_pools(kz.filters[at]);
    }
    kz_tell_left();
    kz_tell_gone();
    kz_tell_again();
    KzCounts counts = kz_counts();
    kz_say(KZ_SAID_COUNTS, "contexts born %llu, cleaned %llu, leaked references %llu, told %llu, limits %llu\n", (unsigned long long)counts.born,
           (unsigned long long)counts.cleaned, (unsigned long long)counts.leaked, (unsigned long long)counts.told, (unsigned long long)counts.limits);
}

int kz_close(void)
{
    kz_end();
    free_all();
    kazdrin_close(&kz.manager);
    return kz.counts.told ? 5 : kz_unmet() ? 1 : 0;
}
