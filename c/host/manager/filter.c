/* Filters: loading, registration and unloading. */
#include "manager/filter.h"

#include "core/client.h"
#include "core/major.h"
#include "core/memory.h"
#include "core/module.h"
#include "core/op.h"
#include "core/piece.h"
#include "core/place.h"
#include "core/state.h"
#include "core/status.h"
#include "core/told.h"
#include "lib/letters.h"
#include "manager/busy.h"
#include "manager/context.h"
#include "manager/instance.h"
#include "manager/perform.h"
#include "manager/registration.h"

#include <stdlib.h>

/* The manager's mask of a major function: of its kinds of operations, and of what it doesn't look into. */
static uint64_t mask_of(UCHAR major)
{
    uint64_t other = KZ_MASK_OTHER(major);
    switch (major) {
    case IRP_MJ_CREATE:
        return KZ_MASK_CREATE;
    case IRP_MJ_READ:
        return KZ_MASK_READ;
    case IRP_MJ_WRITE:
        return KZ_MASK_WRITE;
    case IRP_MJ_QUERY_INFORMATION:
        return KZ_MASK_QUERY_SIZE | other;
    case IRP_MJ_SET_INFORMATION:
        return KZ_MASK_SET_SIZE | KZ_MASK_SET_DELETE | KZ_MASK_RESTORE | other;
    case IRP_MJ_DIRECTORY_CONTROL:
        return KZ_MASK_LIST | other;
    case IRP_MJ_FLUSH_BUFFERS:
        return KZ_MASK_FLUSH;
    case IRP_MJ_CLEANUP:
        return KZ_MASK_CLEANUP;
    case IRP_MJ_CLOSE:
        return KZ_MASK_CLOSE;
    default:
        return other;
    }
}

const FLT_OPERATION_REGISTRATION *kz_registered(PFLT_FILTER filter, UCHAR major)
{
    const FLT_OPERATION_REGISTRATION *one = filter->registration.OperationRegistration;
    for (; one && one->MajorFunction != IRP_MJ_OPERATION_END; one++)
        if (one->MajorFunction == major)
            return one;
    return NULL;
}

/* ---- Registration. What the kit refuses is told, and refused with its status. */
static bool is_size_of(USHORT version, USHORT size)
{
    switch (version) {
    case FLT_REGISTRATION_VERSION_0200:
        return size >= offsetof(FLT_REGISTRATION, TransactionNotificationCallback) && size <= sizeof(FLT_REGISTRATION);
    case FLT_REGISTRATION_VERSION_0201:
    case FLT_REGISTRATION_VERSION_0202:
        return size >= offsetof(FLT_REGISTRATION, SectionNotificationCallback) && size <= sizeof(FLT_REGISTRATION);
    default:
        return version == FLT_REGISTRATION_VERSION_0203 && size == sizeof(FLT_REGISTRATION);
    }
}

static bool is_major(UCHAR major)
{
    return major <= IRP_MJ_MAXIMUM_FUNCTION || (major >= IRP_MJ_VOLUME_DISMOUNT && major <= IRP_MJ_FAST_IO_CHECK_IF_POSSIBLE) || major >= IRP_MJ_QUERY_OPEN;
}

static NTSTATUS check_operations(const FLT_OPERATION_REGISTRATION *first)
{
    bool is_there[256] = {false};
    for (const FLT_OPERATION_REGISTRATION *one = first; one && one->MajorFunction != IRP_MJ_OPERATION_END; one++) {
        if (!is_major(one->MajorFunction)) {
            kz_tell(KZM_NO_END, "FltRegisterFilter", "major function 0x%02x is none (is IRP_MJ_OPERATION_END missing?)", one->MajorFunction);
            return STATUS_INVALID_PARAMETER;
        }
        if (is_there[one->MajorFunction])
            kz_tell(KZM_TWO_OPERATIONS, "FltRegisterFilter", "%s is registered twice: the first one counts", FltGetIrpName(one->MajorFunction));
        is_there[one->MajorFunction] = true;
    }
    return STATUS_SUCCESS;
}

static NTSTATUS check_registration(const FLT_REGISTRATION *one, PFLT_FILTER filter, uint8_t *contexts)
{
    if (!is_size_of(one->Version, one->Size)) {
        kz_tell(KZM_BAD_REGISTRATION, "FltRegisterFilter", "a FLT_REGISTRATION of size %u and version 0x%04x", one->Size, one->Version);
        return STATUS_INVALID_PARAMETER;
    }
    memset(&filter->registration, 0, sizeof filter->registration);
    memcpy(&filter->registration, one, one->Size);
    NTSTATUS status = check_operations(filter->registration.OperationRegistration);
    return NT_SUCCESS(status) ? kz_registration_of_contexts(filter, contexts) : status;
}

/* The manager's names are of letters, digits, _ and -, up to 32: others stand in for what a file's name may have beside them. */
static void name_of(PFLT_FILTER filter, char *name)
{
    size_t length = 0;
    for (const char *from = filter->driver->name; *from && length < 32; from++)
        name[length++] = (char)((*from >= 'a' && *from <= 'z') || (*from >= 'A' && *from <= 'Z') || (*from >= '0' && *from <= '9') || *from == '-' ? *from : '_');
    name[length] = 0;
}

/* Reads and writes here are of files: a filter that asks to be left out of those never sees one. */
static bool is_skipped(const FLT_OPERATION_REGISTRATION *one)
{
    bool is_data = one->MajorFunction == IRP_MJ_READ || one->MajorFunction == IRP_MJ_WRITE;
    return is_data && one->Flags & FLTFL_OPERATION_REGISTRATION_SKIP_NON_DASD_IO;
}

/* It skips some by flags of its registration. Requests are cached, but for paging I/O and what a filter asks for itself. */
bool kz_hears(PFLT_FILTER filter, const KzOp *op)
{
    const FLT_OPERATION_REGISTRATION *one = kz_registered(filter, kz_major_of(op));
    bool is_data = op->event == KZE_READ || op->event == KZE_WRITE, is_cached = !(op->own.irp_flags & (IRP_NOCACHE | IRP_PAGING_IO));
    if (!one || (is_data && is_cached && one->Flags & FLTFL_OPERATION_REGISTRATION_SKIP_CACHED_IO))
        return false;
    return !(op->own.irp_flags & IRP_PAGING_IO && one->Flags & FLTFL_OPERATION_REGISTRATION_SKIP_PAGING_IO);
}

static KzTold register_with_manager(PFLT_FILTER filter, uint8_t contexts)
{
    char name[40];
    KazdrinEvent event = {.event = KZE_REGISTER, .contexts = contexts};
    const FLT_OPERATION_REGISTRATION *one = filter->registration.OperationRegistration;
    for (; one && one->MajorFunction != IRP_MJ_OPERATION_END; one++) {
        if (kz_registered(filter, one->MajorFunction) != one || is_skipped(one))
            continue;
        if (one->PreOperation || one->PostOperation)
            event.pre |= mask_of(one->MajorFunction);
        if (one->PostOperation)
            event.post |= mask_of(one->MajorFunction);
    }
    event.query = filter->registration.InstanceQueryTeardownCallback != NULL;
    event.unload = filter->registration.FilterUnloadCallback != NULL;
    name_of(filter, name);
    return kz_event_with(kz_worker(), event, name, strlen(name));
}

NTSTATUS FltRegisterFilter(PDRIVER_OBJECT Driver, CONST FLT_REGISTRATION *Registration, PFLT_FILTER *RetFilter)
{
    KZ_CALL();
    (void)Driver;
    *RetFilter = NULL;
    PFLT_FILTER filter = kz_me->place.filter;
    uint8_t contexts;
    if (kz_me->place.callback != KZ_IN_ENTRY || filter->is_registered) {
        kz_tell(KZM_REGISTERED_OUTSIDE, __func__, "outside DriverEntry, or called twice");
        return STATUS_INVALID_PARAMETER;
    }
    NTSTATUS checked = check_registration(Registration, filter, &contexts);
    if (!NT_SUCCESS(checked))
        return checked;
    KzTold answer = register_with_manager(filter, contexts);
    if (answer.status != KZS_OK)
        return kz_ntstatus(answer.status);
    filter->id = answer.told.filter;
    filter->is_registered = true;
    kz.filters[kz.filters_count++] = filter;
    *RetFilter = filter;
    return STATUS_SUCCESS;
}

/* How far it is in the manager. */
uint64_t kz_filter_phase(PFLT_FILTER filter)
{
    KazdrinTold told = {0};
    if (filter->is_registered)
        kazdrin_phase(&kz.manager, &(KazdrinEvent){.mode = KZP_OF_FILTER, .filter = filter->id}, &told);
    return told.has ? told.number : KZP_FILTER_NOT_LOADED;
}

static bool is_loaded(PFLT_FILTER filter)
{
    return kz_filter_phase(filter) == KZP_FILTER_LOADED;
}

static bool is_gone(PFLT_FILTER filter)
{
    return kz_filter_phase(filter) == KZP_FILTER_NOT_LOADED;
}

bool kz_is_filter(PFLT_FILTER filter)
{
    for (size_t at = 0; at < kz.filters_count; at++)
        if (kz.filters[at] == filter)
            return true;
    return false;
}

NTSTATUS FltStartFiltering(PFLT_FILTER Filter)
{
    KZ_CALL();
    if (!kz_is_filter(Filter) || !is_loaded(Filter)) {
        kz_tell(KZM_NO_FILTER_OBJECT, __func__, "no filter");
        return STATUS_INVALID_PARAMETER;
    }
    if (Filter->is_started)
        return STATUS_INVALID_PARAMETER;
    Filter->is_started = true;
    for (size_t at = 0; at < kz.volumes_count; at++)
        kz_attach_by_itself(Filter, kz.volumes[at], FLTFL_INSTANCE_SETUP_AUTOMATIC_ATTACHMENT);
    return STATUS_SUCCESS;
}

/* ---- The end of a filter: of its instances one after the other, up to the first that something is in the way of. Called again it goes on there. */
static uint32_t end_instances(PFLT_FILTER filter)
{
    FLT_INSTANCE_TEARDOWN_FLAGS reason = filter->is_mandatory ? FLTFL_INSTANCE_TEARDOWN_MANDATORY_FILTER_UNLOAD : FLTFL_INSTANCE_TEARDOWN_FILTER_UNLOAD;
    uint32_t status = KZS_OK;
    for (size_t at = 0; status == KZS_OK && at < kz.instances_count; at++) {
        PFLT_INSTANCE instance = kz.instances[at];
        if (instance->filter == filter && kz_phase(instance) != KZP_INSTANCE_DETACHED)
            status = kz_tear_down(instance, reason);
    }
    return status;
}

/* From where its end is: the status that stops it, or 0. What else runs here, work items above all, goes on while it waits. */
static uint32_t end(PFLT_FILTER filter)
{
    uint32_t status = end_instances(filter);
    while (status == KZS_BUSY && kz_let_others()) {
        kz_settle();
        status = end_instances(filter);
    }
    if (status != KZS_OK)
        return status;
    status = kz_until_free("empty the filter", (KazdrinEvent){.event = KZE_EMPTY_FILTER, .filter = filter->id}, NULL);
    if (status != KZS_OK)
        return status;
    kz_clean_up();
    status = kz_until_free("finish the filter", (KazdrinEvent){.event = KZE_FINISH_FILTER, .filter = filter->id}, NULL);
    kz_scheduler->touch(filter, 0, KZT_TAKES);
    return status;
}

static void force(PFLT_FILTER filter)
{
    filter->is_mandatory = true;
    kz_event(kz_worker(), (KazdrinEvent){.event = KZE_FORCE_UNLOAD, .filter = filter->id});
}

/* Inside the unload callback it ends that in the manager, and tears down what is left; in DriverEntry, and in a mandatory unload, it takes the registration back. */
VOID FltUnregisterFilter(PFLT_FILTER Filter)
{
    KZ_CALL();
    KzPlace place = kz_me->place;
    char text[512];
    if (Filter != place.filter || !Filter || !is_loaded(Filter) || (place.callback != KZ_IN_UNLOAD && place.callback != KZ_IN_ENTRY)) {
        kz_tell(KZM_UNREGISTERED_OUTSIDE, __func__, "outside the unload callback of the filter, or called twice");
        return;
    }
    if (place.callback == KZ_IN_ENTRY || Filter->is_mandatory)
        force(Filter);
    else
        kz_event(kz_worker(), (KazdrinEvent){.event = KZE_UNLOAD_RETURNED, .flag = 1});
    kz_filter_unregisters(Filter);
    Filter->end = end(Filter);
    kz_me->place = place;
    if (Filter->end == KZS_BUSY)
        kz_tell(KZM_UNREGISTER_WAITS, __func__, "%s: it returns before they end", kz_busy_text(text, sizeof text));
    if (is_gone(Filter))
        kz_tell_kept(Filter);
}

/* Calls the unload callback. */
static void call_unload(PFLT_FILTER filter, FLT_FILTER_UNLOAD_FLAGS flags)
{
    KzPlace before = kz_enter(KZ_IN_UNLOAD, kz_worker(), filter, NULL, NULL, NULL);
    unsigned depth = kz_let_driver("unload", filter->registration.FilterUnloadCallback);
    NTSTATUS said = KZ_CALL_DRIVER(filter->registration.FilterUnloadCallback, flags);
    kz_driver_returned(depth, "unload returns");
    if (is_loaded(filter) && flags & FLTFL_FILTER_UNLOAD_MANDATORY)
        kz_tell(KZM_AGREED_REGISTERED, "FltUnregisterFilter", "never called by an unload that is mandatory: its answer doesn't count");
    else if (is_loaded(filter) && NT_SUCCESS(said)) {
        kz_tell(KZM_AGREED_REGISTERED, "FltUnregisterFilter", "never called by an unload callback that agreed");
        FltUnregisterFilter(filter);
    } else if (!is_loaded(filter) && !NT_SUCCESS(said)) {
        kz_tell(KZM_REFUSED_UNREGISTERED, "FltUnregisterFilter", "called by an unload callback that refused");
    }
    kz_leave(before);
}

static uint32_t ask(PFLT_FILTER filter)
{
    uint32_t status = kz_event(kz_worker(), (KazdrinEvent){.event = KZE_ASK_UNLOAD, .filter = filter->id}).status;
    if (status != KZS_OK)
        return status;
    call_unload(filter, 0);
    if (is_gone(filter))
        kz_filter_ends(filter);
    if (!is_loaded(filter))
        return filter->end;
    return kz_event(kz_worker(), (KazdrinEvent){.event = KZE_UNLOAD_RETURNED, .flag = 0}).status;
}

uint32_t kz_unload(PFLT_FILTER filter)
{
    uint64_t phase = kz_filter_phase(filter);
    if (kz_has_others() || (phase != KZP_FILTER_UNLOADING && phase != KZP_FILTER_EMPTIED))
        return ask(filter);
    filter->end = end(filter);
    if (is_gone(filter))
        kz_filter_ends(filter);
    return filter->end;
}

/* At the end every filter goes: one that refuses is asked again as the kit asks it then, and its answer doesn't count. */
void kz_unload_all(void)
{
    for (size_t at = 0; at < kz.filters_count; at++) {
        PFLT_FILTER filter = kz.filters[at];
        if (!is_gone(filter))
            kz_unload(filter);
        if (!is_loaded(filter))
            continue;
        filter->is_mandatory = true;
        if (filter->registration.FilterUnloadCallback)
            call_unload(filter, FLTFL_FILTER_UNLOAD_MANDATORY);
        if (is_loaded(filter)) {
            force(filter);
            filter->end = end(filter);
        }
        kz_filter_ends(filter);
    }
}

/* ---- Loading. */
static void name_driver(PFLT_FILTER filter)
{
    char text[120];
    snprintf(text, sizeof text, "/Driver/%.60s", filter->driver->name);
    bool is_there = kz_give_name(&filter->object.DriverName, text, true);
    snprintf(text, sizeof text, "/REGISTRY/MACHINE/SYSTEM/ControlSet001/Services/%.60s", filter->driver->name);
    if (!kz_give_name(&filter->registry_path, text, true) || !is_there) {
        fprintf(stderr, "no memory\n");
        exit(1);
    }
    filter->object.Type = 4;
    filter->object.Size = sizeof(DRIVER_OBJECT);
}

static uint32_t enter(PFLT_FILTER filter, NTSTATUS *other)
{
    KzPlace before = kz_enter(KZ_IN_ENTRY, kz_worker(), filter, NULL, NULL, NULL);
    name_driver(filter);
    unsigned depth = kz_let_driver("DriverEntry", filter->driver->entry);
    NTSTATUS said = KZ_CALL_DRIVER(filter->driver->entry, &filter->object, &filter->registry_path);
    kz_driver_returned(depth, "DriverEntry returns");
    kz_filter_begins(filter);
    kz_scheduler->touch(&filter->is_started, 0, KZT_GIVES);
    if (NT_SUCCESS(said) && kz_binaries.entered)
        kz_binaries.entered(filter->driver);
    if (NT_SUCCESS(said) && !filter->is_registered)
        kz_tell(KZM_NEVER_REGISTERED, "FltRegisterFilter", "never called by a DriverEntry that succeeded");
    else if (NT_SUCCESS(said) && !filter->is_started)
        kz_tell(KZM_NEVER_STARTED, "FltStartFiltering", "never called by a DriverEntry that succeeded");
    else if (!NT_SUCCESS(said) && is_loaded(filter)) {
        kz_tell(KZM_FAILED_REGISTERED, "FltUnregisterFilter", "never called by a DriverEntry that failed");
        FltUnregisterFilter(filter);
    }
    kz_leave(before);
    if (!NT_SUCCESS(said))
        kz_filter_ends(filter);
    bool is_exact;
    uint32_t number = NT_SUCCESS(said) ? KZS_OK : kz_number(said, &is_exact);
    *other = NT_SUCCESS(said) || is_exact ? STATUS_SUCCESS : said;
    return number;
}

/* A driver has one set of globals, so that it is loaded once at a time. */
static bool is_in_use(const KzDriver *driver)
{
    for (size_t at = 0; at < kz.filters_count; at++)
        if (kz.filters[at]->driver == driver && !is_gone(kz.filters[at]))
            return true;
    return false;
}

/* With an altitude it is attached by itself, as an INF file says: to each volume that is there once it starts filtering, and to each that is mounted from then on. */
uint32_t kz_load_inside(const char *name, const char *altitude, uint64_t *number, NTSTATUS *other)
{
    *other = STATUS_SUCCESS;
    const KzDriver *driver = NULL;
    for (size_t at = 0; at < kz.drivers_count; at++)
        if (strcmp(kz.drivers[at].name, name) == 0)
            driver = &kz.drivers[at];
    if (!driver)
        return KZS_NO_FILTER;
    if (is_in_use(driver))
        return KZS_ALREADY_LOADED;
    if (kz.filters_count == sizeof kz.filters / sizeof kz.filters[0])
        return KZS_TOO_MANY;
    if (kz_binaries.open)
        kz_binaries.open(driver);
    PFLT_FILTER filter = kz_memory(sizeof *filter);
    filter->driver = driver;
    snprintf(filter->altitude, sizeof filter->altitude, "%s", altitude);
    uint32_t status = enter(filter, other);
    if (!filter->is_registered) {
        kz_tell_pools(filter);
        kz_give_back(filter->object.DriverName.Buffer);
        kz_give_back(filter->registry_path.Buffer);
        filter->refused = kz.refused;
        kz.refused = filter;
        return status;
    }
    *number = filter->id;
    return status;
}

/* What its entry left to be done is done before the answer. */
uint32_t kz_load(const char *name, const char *altitude, uint64_t *number, NTSTATUS *other)
{
    uint32_t status = kz_load_inside(name, altitude, number, other);
    kz_settle();
    return status;
}
