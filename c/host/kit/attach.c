/* Instances that somebody asks for by name: a driver, or a program. */
#include "kit/attach.h"

#include "core/client.h"
#include "core/state.h"
#include "core/status.h"
#include "core/told.h"
#include "lib/letters.h"
#include "manager/filter.h"
#include "manager/instance.h"
#include "manager/reference.h"

NTSTATUS kz_attach_by_hand(const KzAttaching *asked, uint64_t *number)
{
    char name[40];
    NTSTATUS said;
    const char *altitude = asked->altitude ? asked->altitude : asked->filter->altitude;
    if (!*altitude)
        return STATUS_FLT_INSTANCE_NOT_FOUND; /* as where an INF file has no default instance */
    if (asked->name)
        snprintf(name, sizeof name, "%s", asked->name);
    else
        snprintf(name, sizeof name, "%.24s-%.12s", asked->filter->driver->name, asked->volume->name);
    return kz_ntstatus(kz_attach(asked->filter, asked->volume, name, altitude, FLTFL_INSTANCE_SETUP_MANUAL_ATTACHMENT, number, &said));
}

PFLT_INSTANCE kz_instance_named(PFLT_FILTER filter, PFLT_VOLUME volume, const char *name)
{
    for (size_t at = 0; at < kz.instances_count; at++) {
        PFLT_INSTANCE one = kz.instances[at];
        if (one->filter == filter && one->volume == volume && kz_phase(one) != KZP_INSTANCE_DETACHED && (!*name || KzStricmp(one->name, name) == 0))
            return one;
    }
    return NULL;
}

/* ---- By a driver: in whatever callback it is, another worker does it. */
static NTSTATUS attach(PFLT_FILTER filter, PFLT_VOLUME volume, PCUNICODE_STRING altitude, PCUNICODE_STRING name, PFLT_INSTANCE *made)
{
    char text[68], own[40];
    uint64_t number = 0;
    if (altitude)
        kz_narrow(text, sizeof text, altitude);
    if (name)
        kz_narrow(own, sizeof own, name);
    KzPlace before = kz_me->place;
    uint8_t worker = kz_helper();
    kz_me->place.worker = worker;
    NTSTATUS status = kz_attach_by_hand(&(KzAttaching){filter, volume, altitude ? text : NULL, name ? own : NULL}, &number);
    kz_me->place = before;
    kz_helped(worker);
    if (NT_SUCCESS(status) && made) {
        *made = kz.instances[number];
        kz_take_object(*made, true, "FltAttachVolume");
    }
    return status;
}

NTSTATUS FltAttachVolumeAtAltitude(PFLT_FILTER Filter, PFLT_VOLUME Volume, PCUNICODE_STRING Altitude, PCUNICODE_STRING InstanceName, PFLT_INSTANCE *RetInstance)
{
    KZ_CALL();
    if (RetInstance)
        *RetInstance = NULL;
    if (!kz_is_filter(Filter) || !Volume)
        return STATUS_INVALID_PARAMETER;
    return attach(Filter, Volume, Altitude, InstanceName, RetInstance);
}

NTSTATUS FltAttachVolume(PFLT_FILTER Filter, PFLT_VOLUME Volume, PCUNICODE_STRING InstanceName, PFLT_INSTANCE *RetInstance)
{
    return FltAttachVolumeAtAltitude(Filter, Volume, NULL, InstanceName, RetInstance);
}

/* In the kit the call waits for what is in flight. Here who is in a callback of the instance would wait for itself. */
NTSTATUS FltDetachVolume(PFLT_FILTER Filter, PFLT_VOLUME Volume, PCUNICODE_STRING InstanceName)
{
    KZ_CALL();
    char name[40] = "";
    if (InstanceName)
        kz_narrow(name, sizeof name, InstanceName);
    PFLT_INSTANCE one = kz_instance_named(Filter, Volume, name);
    if (!one)
        return STATUS_FLT_INSTANCE_NOT_FOUND;
    KzPlace before = kz_me->place;
    uint8_t worker = kz_helper();
    kz_me->place.worker = worker;
    uint32_t status = kz_detach(one);
    kz_me->place = before;
    kz_helped(worker);
    if (status == KZS_BUSY)
        kz_tell(KZM_ATTACH, __func__, "something of the instance is in flight: it stays in its teardown, and the call doesn't wait");
    return kz_ntstatus(status);
}
