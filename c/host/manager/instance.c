/* Instances: how they come and go. */
#include "manager/instance.h"

#include "core/client.h"
#include "core/memory.h"
#include "core/piece.h"
#include "core/place.h"
#include "core/said.h"
#include "core/state.h"
#include "core/told.h"
#include "manager/busy.h"
#include "manager/context.h"
#include "manager/filecontext.h"
#include "manager/hand.h"
#include "manager/filter.h"
#include "manager/operation.h"
#include "manager/post.h"
#include "manager/perform.h"
#include "manager/reference.h"
#include "manager/work.h"

#include <stdlib.h>

/* How far it is in the manager. */
uint64_t kz_phase(PFLT_INSTANCE instance)
{
    KazdrinTold told = {0};
    kz_scheduler->uses(&instance->torn_down_by, KZU_READS);
    kazdrin_phase(&kz.manager, &(KazdrinEvent){.mode = KZP_OF_INSTANCE, .instance = instance->id}, &told);
    return told.has ? told.number : KZP_INSTANCE_DETACHED;
}

void kz_uses_teardown(PFLT_INSTANCE instance, bool is_changed)
{
    if (!kz_me->is_detaching || kz_me->place.filter)
        return;
    kz_uses_little();
    kz_scheduler->uses(instance->name, KZU_WRITES); /* that it is asked about */
    kz_scheduler->uses(is_changed ? (void *)&instance->torn_down_by : (void *)&instance->in_flight, is_changed ? KZU_WRITES : KZU_READS);
    kz_scheduler->uses(&kz.context, is_changed ? KZU_WRITES : KZU_READS);
    kz_uses_closes();
}

/* ---- Attaching. */
static NTSTATUS set_up(PFLT_INSTANCE instance, FLT_INSTANCE_SETUP_FLAGS flags)
{
    PFLT_INSTANCE_SETUP_CALLBACK callback = instance->filter->registration.InstanceSetupCallback;
    KzPlace before = kz_enter(KZ_IN_SETUP, kz_worker(), instance->filter, instance, NULL, NULL);
    FLT_RELATED_OBJECTS objects = kz_objects(instance, NULL);
    unsigned depth = kz_let_driver("setup", callback);
    NTSTATUS said = callback ? KZ_CALL_DRIVER(callback, &objects, flags, instance->volume->device.DeviceType, instance->volume->type) : STATUS_SUCCESS;
    kz_driver_returned(depth, "setup returns");
    kz_scheduler->touch(&instance->id, 0, KZT_GIVES);
    kz_keep_rest(NULL);
    kz_leave(before);
    return said;
}

static PFLT_INSTANCE new_instance(uint16_t id, PFLT_FILTER filter, PFLT_VOLUME volume, const char *name, const char *altitude)
{
    PFLT_INSTANCE made = kz_memory(sizeof *made);
    *made = (struct _FLT_INSTANCE){.id = id, .filter = filter, .volume = volume};
    snprintf(made->name, sizeof made->name, "%s", name);
    snprintf(made->altitude, sizeof made->altitude, "%s", altitude);
    size_t size = (kz.instances_count + 1) * sizeof *kz.instances;
    PFLT_INSTANCE *all = realloc(kz.instances, size);
    if (!all)
        exit(1);
    kz.instances = all;
    kz.instances[kz.instances_count++] = made;
    return made;
}

bool kz_is_instance(PFLT_INSTANCE instance)
{
    for (size_t at = 0; at < kz.instances_count; at++)
        if (kz.instances[at] == instance)
            return true;
    return false;
}

/* A field of what a callback was given, and kept. */
static bool is_gone(PFLT_INSTANCE instance)
{
    uint8_t gone[sizeof instance];
    memset(gone, KZ_GONE_BYTE, sizeof gone);
    return memcmp(&instance, gone, sizeof gone) == 0;
}

bool kz_may_use(const char *call, PFLT_INSTANCE instance)
{
    bool is_own = kz_me->place.instance == instance; /* a work item has a reference of its own */
    if (is_gone(instance)) {
        kz_tell(KZM_NO_FILTER_OBJECT, call, "no instance: FLT_RELATED_OBJECTS were kept, and are gone once their callback has returned");
        return false;
    }
    if (!instance || is_own || !kz_is_instance(instance) || kz_phase(instance) != KZP_INSTANCE_DETACHED || kz_is_referenced(instance))
        return true;
    kz_tell_of(instance, KZM_NO_FILTER_OBJECT, call, "instance %u, which was detached (FltObjectReference keeps one)", instance->id);
    return false;
}

uint32_t kz_attach(PFLT_FILTER filter, PFLT_VOLUME volume, const char *name, const char *altitude, FLT_INSTANCE_SETUP_FLAGS flags, uint64_t *number, NTSTATUS *said)
{
    KazdrinEvent event = {.filter = filter->id, .volume = volume->id, .worker = kz_worker()};
    KazdrinTold told = {0};
    uint8_t none;
    *said = STATUS_SUCCESS;
    uint32_t status = kazdrin_attach(&kz.manager, &event, (const uint8_t *)name, strlen(name), (const uint8_t *)altitude, strlen(altitude), &told, &none, 0);
    if (status != KZS_OK)
        return status;
    PFLT_INSTANCE instance = new_instance(told.instance, filter, volume, name, altitude);
    *number = instance->id;
    NTSTATUS answered = set_up(instance, flags);
    *said = NT_SUCCESS(answered) ? STATUS_SUCCESS : answered;
    status = kz_event(kz_worker(), (KazdrinEvent){.event = KZE_SETUP_DONE, .flag = NT_SUCCESS(answered)}).status;
    kz_settle();
    if (status != KZS_OK)
        kz_finish_teardown(instance);
    return status;
}

void kz_attach_by_itself(PFLT_FILTER filter, PFLT_VOLUME volume, FLT_INSTANCE_SETUP_FLAGS flags)
{
    if (!*filter->altitude || kz_filter_phase(filter) != KZP_FILTER_LOADED || !filter->is_started || volume->is_dismounting)
        return;
    char name[40], own[20] = "";
    uint64_t number = 0;
    NTSTATUS said;
    snprintf(name, sizeof name, "%.24s-auto", filter->driver->name);
    for (char *letter = name; *letter; letter++)
        if (*letter == '.' || *letter == ' ')
            *letter = '_';
    uint32_t status = kz_attach(filter, volume, name, filter->altitude, flags, &number, &said);
    if (said)
        snprintf(own, sizeof own, " (0x%08x)", (unsigned)said);
    kz_say(KZ_SAID_REPLY, "%s at %s on %s: status %u%s info %llu\n", filter->driver->name, filter->altitude, volume->name, status, own, (unsigned long long)(status ? 0 : number));
}

/* ---- What a filter does for an instance outside of callbacks: in a work item, and where it completes what the instance holds. The manager has the worker in a routine. */
bool kz_enter_routine(PFLT_INSTANCE instance, const KzFile *file, uint8_t worker)
{
    KazdrinEvent event = {.event = KZE_ENTER_ROUTINE, .instance = instance->id, .flag = file != NULL, .handle = file ? file->handle : 0};
    return kz_event(worker, event).status == KZS_OK;
}

void kz_leave_routine(uint8_t worker)
{
    kz_event(worker, (KazdrinEvent){.event = KZE_ROUTINE_RETURNED});
    kz_clean_up();
}

/* ---- The question whether an instance may be detached. */
static uint32_t ask(PFLT_INSTANCE instance)
{
    uint32_t status = kz_event(kz_worker(), (KazdrinEvent){.event = KZE_ASK_DETACH, .instance = instance->id}).status;
    if (status != KZS_OK)
        return status;
    KzPlace before = kz_enter(KZ_IN_QUERY, kz_worker(), instance->filter, instance, NULL, NULL);
    FLT_RELATED_OBJECTS objects = kz_objects(instance, NULL);
    unsigned depth = kz_let_driver("query", instance->filter->registration.InstanceQueryTeardownCallback);
    NTSTATUS said = KZ_CALL_DRIVER(instance->filter->registration.InstanceQueryTeardownCallback, &objects, 0);
    kz_driver_returned(depth, "query returns");
    kz_keep_rest(NULL);
    kz_leave(before);
    kz_uses_teardown(instance, true);
    status = kz_event(kz_worker(), (KazdrinEvent){.event = KZE_QUERY_RETURNED, .flag = NT_SUCCESS(said)}).status;
    kz.changes++;
    kz_settle();
    return status;
}

/* ---- Teardown. */
static void tell_teardown(PFLT_INSTANCE instance, KzCallback place, PFLT_INSTANCE_TEARDOWN_CALLBACK callback, FLT_INSTANCE_TEARDOWN_FLAGS reason)
{
    KzPlace before = kz_enter(place, kz_worker(), instance->filter, instance, NULL, NULL);
    FLT_RELATED_OBJECTS objects = kz_objects(instance, NULL);
    if (callback) {
        unsigned depth = kz_let_driver(place == KZ_IN_START ? "teardown start" : "teardown complete", callback);
        KZ_CALL_DRIVER(callback, &objects, reason);
        kz_driver_returned(depth, place == KZ_IN_START ? "teardown start returns" : "teardown complete returns");
    }
    kz_keep_rest(NULL);
    kz_leave(before);
    kz_uses_teardown(instance, true);
}

static void start(PFLT_INSTANCE instance, FLT_INSTANCE_TEARDOWN_FLAGS reason)
{
    if (kz_phase(instance) != KZP_INSTANCE_STOPPING || kz_event(kz_worker(), (KazdrinEvent){.event = KZE_START_TEARDOWN, .instance = instance->id}).status != KZS_OK)
        return;
    tell_teardown(instance, KZ_IN_START, instance->filter->registration.InstanceTeardownStartCallback, reason);
    kz_event(kz_worker(), (KazdrinEvent){.event = KZE_START_RETURNED});
    while (kz_drain_next(instance))
        ;
    kz_settle();
}

static bool has_no_items(void *instance)
{
    return !((PFLT_INSTANCE)instance)->items;
}

/* As in the kit: a teardown isn't complete before the instance's work items have ended. */
static void wait_for_items(PFLT_INSTANCE instance)
{
    while (instance->items && kz_let_others())
        ;
    kz_wait(has_no_items, instance, "the work items of instance %u", instance->id);
    kz_scheduler->touch(&instance->items, 0, KZT_TAKES);
}

/* Up to the cleanup of its contexts: the status that stops it, or 0. */
static uint32_t stop(PFLT_INSTANCE instance, FLT_INSTANCE_TEARDOWN_FLAGS reason)
{
    start(instance, reason);
    if (kz_phase(instance) == KZP_INSTANCE_STOPPING) {
        wait_for_items(instance);
        uint32_t status = kz_until_free("complete teardown", (KazdrinEvent){.event = KZE_COMPLETE_TEARDOWN, .instance = instance->id}, instance);
        if (status != KZS_OK)
            return status;
        kz_scheduler->touch(&instance->in_flight, 0, KZT_TAKES);
        tell_teardown(instance, KZ_IN_COMPLETE, instance->filter->registration.InstanceTeardownCompleteCallback, reason);
        kz_event(kz_worker(), (KazdrinEvent){.event = KZE_COMPLETE_RETURNED});
        kz_settle();
    }
    return KZS_OK;
}

uint32_t kz_finish_teardown(PFLT_INSTANCE instance)
{
    kz_uses_teardown(instance, true);
    kz_end_links_of(instance);
    kz_clean_up();
    uint32_t status = kz_until_free("finish", (KazdrinEvent){.event = KZE_FINISH, .instance = instance->id}, NULL);
    kz_scheduler->touch(instance->filter, 0, KZT_GIVES);
    kz.changes++;
    return status;
}

/* Nobody else takes it through its teardown. */
static bool is_alone(void *instance)
{
    KzClient *other = ((PFLT_INSTANCE)instance)->torn_down_by;
    return !other || other == kz_me;
}

/* From where the teardown is: the status that stops it, or 0. */
uint32_t kz_tear_down(PFLT_INSTANCE instance, FLT_INSTANCE_TEARDOWN_FLAGS reason)
{
    if (!kz_wait(is_alone, instance, "the teardown of instance %u by another", instance->id))
        return KZS_BUSY;
    KzClient *before = instance->torn_down_by;
    kz_uses_teardown(instance, true);
    instance->torn_down_by = kz_me;
    uint32_t status = kz_phase(instance) == KZP_INSTANCE_DETACHED ? KZS_OK : stop(instance, reason);
    if (status == KZS_OK && kz_phase(instance) != KZP_INSTANCE_DETACHED)
        status = kz_finish_teardown(instance);
    instance->torn_down_by = before;
    return status;
}

uint32_t kz_detach(PFLT_INSTANCE instance)
{
    uint64_t phase = kz_phase(instance);
    bool is_leaving = !kz_has_others() && (phase == KZP_INSTANCE_STOPPING || phase == KZP_INSTANCE_EMPTYING);
    uint32_t status = is_leaving ? KZS_OK : ask(instance);
    return status == KZS_OK ? kz_tear_down(instance, FLTFL_INSTANCE_TEARDOWN_MANUAL) : status;
}

uint32_t kz_detach_alone(PFLT_INSTANCE instance)
{
    kz_me->is_detaching = true;
    kz_uses_little();
    kz_scheduler->uses(instance->name, KZU_WRITES); /* that it is asked about */
    uint32_t status = kz_detach(instance);
    kz_me->is_detaching = false;
    return status;
}

uint32_t kz_stop_for_dismount(PFLT_INSTANCE instance)
{
    if (!kz_wait(is_alone, instance, "the teardown of instance %u by another", instance->id))
        return KZS_BUSY;
    KzClient *before = instance->torn_down_by;
    instance->torn_down_by = kz_me;
    uint32_t status = kz_phase(instance) == KZP_INSTANCE_DETACHED ? KZS_OK : stop(instance, FLTFL_INSTANCE_TEARDOWN_VOLUME_DISMOUNT);
    instance->torn_down_by = before;
    return status;
}
