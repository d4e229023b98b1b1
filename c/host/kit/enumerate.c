/* The objects of the filter manager, by name and by number. */
#include "core/client.h"
#include "lib/letters.h"
#include "filesystem/fileobject.h"
#include "manager/altitude.h"
#include "manager/filter.h"
#include "manager/instance.h"
#include "manager/reference.h"

static NTSTATUS give_volume(PFLT_VOLUME volume, PFLT_VOLUME *to, const char *call)
{
    *to = volume;
    if (volume)
        kz_take_object(volume, true, call);
    return volume ? STATUS_SUCCESS : STATUS_FLT_VOLUME_NOT_FOUND;
}

NTSTATUS FltGetVolumeFromDeviceObject(PFLT_FILTER Filter, PDEVICE_OBJECT DeviceObject, PFLT_VOLUME *RetVolume)
{
    KZ_CALL();
    (void)Filter;
    for (size_t at = 0; at < kz.volumes_count; at++)
        if (DeviceObject == &kz.volumes[at]->device || DeviceObject == &kz.volumes[at]->disk)
            return give_volume(kz.volumes[at], RetVolume, __func__);
    return give_volume(NULL, RetVolume, __func__);
}

NTSTATUS FltGetVolumeFromInstance(PFLT_INSTANCE Instance, PFLT_VOLUME *RetVolume)
{
    KZ_CALL();
    if (!kz_may_use(__func__, Instance))
        return STATUS_FLT_DELETING_OBJECT;
    return give_volume(Instance->volume, RetVolume, __func__);
}

NTSTATUS FltGetVolumeFromFileObject(PFLT_FILTER Filter, PFILE_OBJECT FileObject, PFLT_VOLUME *RetVolume)
{
    KZ_CALL();
    (void)Filter;
    KzFile *file = kz_file_with(FileObject);
    return give_volume(file ? file->volume : NULL, RetVolume, __func__);
}

NTSTATUS FltGetVolumeFromName(PFLT_FILTER Filter, PCUNICODE_STRING VolumeName, PFLT_VOLUME *RetVolume)
{
    KZ_CALL();
    (void)Filter;
    char name[80], own[80];
    kz_narrow(name, sizeof name, VolumeName);
    for (size_t at = 0; at < kz.volumes_count; at++) {
        snprintf(own, sizeof own, "/Device/%s", kz.volumes[at]->name);
        if (KzStricmp(name, own) == 0)
            return give_volume(kz.volumes[at], RetVolume, __func__);
    }
    return give_volume(NULL, RetVolume, __func__);
}

NTSTATUS FltEnumerateVolumes(PFLT_FILTER Filter, PFLT_VOLUME *VolumeList, ULONG VolumeListSize, PULONG NumberVolumesReturned)
{
    KZ_CALL();
    (void)Filter;
    ULONG count = 0;
    for (size_t at = 0; at < kz.volumes_count; at++)
        count += !kz.volumes[at]->is_dismounting;
    *NumberVolumesReturned = count;
    if (!VolumeList || VolumeListSize < count)
        return STATUS_BUFFER_TOO_SMALL;
    count = 0;
    for (size_t at = 0; at < kz.volumes_count; at++)
        if (!kz.volumes[at]->is_dismounting)
            give_volume(kz.volumes[at], &VolumeList[count++], __func__);
    return STATUS_SUCCESS;
}

/* ---- Filters and instances. */
NTSTATUS FltGetFilterFromInstance(PFLT_INSTANCE Instance, PFLT_FILTER *RetFilter)
{
    KZ_CALL();
    if (!kz_may_use(__func__, Instance))
        return STATUS_FLT_DELETING_OBJECT;
    *RetFilter = Instance->filter;
    kz_take_object(Instance->filter, true, __func__);
    return STATUS_SUCCESS;
}

NTSTATUS FltGetFilterFromName(PCUNICODE_STRING FilterName, PFLT_FILTER *RetFilter)
{
    KZ_CALL();
    char name[80];
    kz_narrow(name, sizeof name, FilterName);
    *RetFilter = NULL;
    for (size_t at = 0; at < kz.filters_count; at++)
        if (kz_filter_phase(kz.filters[at]) == KZP_FILTER_LOADED && KzStricmp(kz.filters[at]->driver->name, name) == 0) {
            *RetFilter = kz.filters[at];
            kz_take_object(kz.filters[at], true, __func__);
            return STATUS_SUCCESS;
        }
    return STATUS_FLT_FILTER_NOT_FOUND;
}

static bool is_there(PFLT_INSTANCE one, PFLT_VOLUME volume, PFLT_FILTER filter)
{
    return kz_phase(one) == KZP_INSTANCE_ATTACHED && (!volume || one->volume == volume) && (!filter || one->filter == filter);
}

NTSTATUS FltEnumerateInstances(PFLT_VOLUME Volume, PFLT_FILTER Filter, PFLT_INSTANCE *InstanceList, ULONG InstanceListSize, PULONG NumberInstancesReturned)
{
    KZ_CALL();
    ULONG count = 0;
    for (size_t at = 0; at < kz.instances_count; at++)
        count += is_there(kz.instances[at], Volume, Filter);
    *NumberInstancesReturned = count;
    if (!InstanceList || InstanceListSize < count)
        return STATUS_BUFFER_TOO_SMALL;
    count = 0;
    for (size_t at = 0; at < kz.instances_count; at++)
        if (is_there(kz.instances[at], Volume, Filter)) {
            InstanceList[count++] = kz.instances[at];
            kz_take_object(kz.instances[at], true, __func__);
        }
    return STATUS_SUCCESS;
}

static NTSTATUS give_instance(PFLT_INSTANCE instance, PFLT_INSTANCE *to, const char *call)
{
    *to = instance;
    if (instance)
        kz_take_object(instance, true, call);
    return instance ? STATUS_SUCCESS : STATUS_FLT_INSTANCE_NOT_FOUND;
}

NTSTATUS FltGetVolumeInstanceFromName(PFLT_FILTER Filter, PFLT_VOLUME Volume, PCUNICODE_STRING InstanceName, PFLT_INSTANCE *RetInstance)
{
    KZ_CALL();
    char name[80];
    kz_narrow(name, sizeof name, InstanceName);
    for (size_t at = 0; at < kz.instances_count; at++)
        if (is_there(kz.instances[at], Volume, Filter) && (!InstanceName || KzStricmp(kz.instances[at]->name, name) == 0))
            return give_instance(kz.instances[at], RetInstance, __func__);
    return give_instance(NULL, RetInstance, __func__);
}

LONG FltCompareInstanceAltitudes(PFLT_INSTANCE Instance1, PFLT_INSTANCE Instance2)
{
    KZ_INSIDE_ALONE();
    return kz_compare_altitudes(Instance1->altitude, Instance2->altitude);
}

static PFLT_INSTANCE outermost(PFLT_VOLUME volume, int side)
{
    PFLT_INSTANCE found = NULL;
    for (size_t at = 0; at < kz.instances_count; at++)
        if (is_there(kz.instances[at], volume, NULL) && (!found || kz_compare_altitudes(kz.instances[at]->altitude, found->altitude) == side))
            found = kz.instances[at];
    return found;
}

NTSTATUS FltGetTopInstance(PFLT_VOLUME Volume, PFLT_INSTANCE *Instance)
{
    KZ_CALL();
    return give_instance(outermost(Volume, 1), Instance, __func__);
}

NTSTATUS FltGetBottomInstance(PFLT_VOLUME Volume, PFLT_INSTANCE *Instance)
{
    KZ_CALL();
    return give_instance(outermost(Volume, -1), Instance, __func__);
}

/* The next one above (1) or below (-1). */
static PFLT_INSTANCE next_to(PFLT_INSTANCE from, int side)
{
    PFLT_INSTANCE found = NULL;
    for (size_t at = 0; at < kz.instances_count; at++) {
        PFLT_INSTANCE one = kz.instances[at];
        if (is_there(one, from->volume, NULL) && kz_compare_altitudes(one->altitude, from->altitude) == side &&
            (!found || kz_compare_altitudes(found->altitude, one->altitude) == side))
            found = one;
    }
    return found;
}

NTSTATUS FltGetUpperInstance(PFLT_INSTANCE CurrentInstance, PFLT_INSTANCE *UpperInstance)
{
    KZ_CALL();
    if (!kz_may_use(__func__, CurrentInstance))
        return STATUS_FLT_DELETING_OBJECT;
    NTSTATUS status = give_instance(next_to(CurrentInstance, 1), UpperInstance, __func__);
    return NT_SUCCESS(status) ? status : STATUS_NO_MORE_ENTRIES;
}

NTSTATUS FltGetLowerInstance(PFLT_INSTANCE CurrentInstance, PFLT_INSTANCE *LowerInstance)
{
    KZ_CALL();
    if (!kz_may_use(__func__, CurrentInstance))
        return STATUS_FLT_DELETING_OBJECT;
    NTSTATUS status = give_instance(next_to(CurrentInstance, -1), LowerInstance, __func__);
    return NT_SUCCESS(status) ? status : STATUS_NO_MORE_ENTRIES;
}

NTSTATUS FltEnumerateFilters(PFLT_FILTER *FilterList, ULONG FilterListSize, PULONG NumberFiltersReturned)
{
    KZ_CALL();
    ULONG count = 0;
    for (size_t at = 0; at < kz.filters_count; at++)
        count += kz_filter_phase(kz.filters[at]) == KZP_FILTER_LOADED;
    *NumberFiltersReturned = count;
    if (!FilterList || FilterListSize < count)
        return STATUS_BUFFER_TOO_SMALL;
    count = 0;
    for (size_t at = 0; at < kz.filters_count; at++)
        if (kz_filter_phase(kz.filters[at]) == KZP_FILTER_LOADED) {
            FilterList[count++] = kz.filters[at];
            kz_take_object(kz.filters[at], true, __func__);
        }
    return STATUS_SUCCESS;
}
