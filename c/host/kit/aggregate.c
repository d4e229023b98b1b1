/* What filters, volumes and instances are, by the kit's classes of information; one of them, or each by its place. */
#include "kit/aggregate.h"

#include "core/client.h"
#include "lib/letters.h"
#include "manager/altitude.h"
#include "manager/filter.h"
#include "manager/instance.h"
#include "manager/reference.h"

/* Texts behind a structure, each with its length and its place there. */
typedef struct {
    uint8_t *room;
    uint32_t used, size;
} Texts;

static void put_text(Texts *to, uint16_t *length, uint16_t *offset, const char *text)
{
    *length = (uint16_t)(strlen(text) * sizeof(WCHAR));
    *offset = (uint16_t)to->used;
    for (; *text; text++, to->used += sizeof(WCHAR)) {
        WCHAR letter = (WCHAR)(*text == '/' ? '\\' : (UCHAR)*text);
        if (to->used + sizeof letter <= to->size)
            memcpy(to->room + to->used, &letter, sizeof letter);
    }
}

/* Where it doesn't fit nothing is given but how much it needs. */
static NTSTATUS given(const Texts *texts, const void *head, size_t size, uint32_t *returned)
{
    *returned = texts->used;
    if (texts->used > texts->size)
        return STATUS_BUFFER_TOO_SMALL;
    memcpy(texts->room, head, size);
    return STATUS_SUCCESS;
}

static void volume_name(char *room, size_t size, PFLT_VOLUME volume)
{
    snprintf(room, size, "/Device/%s", volume->name);
}

NTSTATUS kz_give_instance(void *found, uint32_t class, uint8_t *room, uint32_t size, uint32_t *returned)
{
    PFLT_INSTANCE one = found;
    char volume[64];
    volume_name(volume, sizeof volume, one->volume);
    if (class == InstanceBasicInformation) {
        INSTANCE_BASIC_INFORMATION info = {0};
        Texts texts = {room, sizeof info, size};
        put_text(&texts, &info.InstanceNameLength, &info.InstanceNameBufferOffset, one->name);
        return given(&texts, &info, sizeof info, returned);
    }
    if (class == InstancePartialInformation) {
        INSTANCE_PARTIAL_INFORMATION info = {0};
        Texts texts = {room, sizeof info, size};
        put_text(&texts, &info.InstanceNameLength, &info.InstanceNameBufferOffset, one->name);
        put_text(&texts, &info.AltitudeLength, &info.AltitudeBufferOffset, one->altitude);
        return given(&texts, &info, sizeof info, returned);
    }
    if (class == InstanceFullInformation) {
        INSTANCE_FULL_INFORMATION info = {0};
        Texts texts = {room, sizeof info, size};
        put_text(&texts, &info.InstanceNameLength, &info.InstanceNameBufferOffset, one->name);
        put_text(&texts, &info.AltitudeLength, &info.AltitudeBufferOffset, one->altitude);
        put_text(&texts, &info.VolumeNameLength, &info.VolumeNameBufferOffset, volume);
        put_text(&texts, &info.FilterNameLength, &info.FilterNameBufferOffset, one->filter->driver->name);
        return given(&texts, &info, sizeof info, returned);
    }
    INSTANCE_AGGREGATE_STANDARD_INFORMATION info = {.Flags = FLTFL_IASI_IS_MINIFILTER, .Type.MiniFilter.VolumeFileSystemType = one->volume->type};
    Texts texts = {room, sizeof info, size};
    put_text(&texts, &info.Type.MiniFilter.InstanceNameLength, &info.Type.MiniFilter.InstanceNameBufferOffset, one->name);
    put_text(&texts, &info.Type.MiniFilter.AltitudeLength, &info.Type.MiniFilter.AltitudeBufferOffset, one->altitude);
    put_text(&texts, &info.Type.MiniFilter.VolumeNameLength, &info.Type.MiniFilter.VolumeNameBufferOffset, volume);
    put_text(&texts, &info.Type.MiniFilter.FilterNameLength, &info.Type.MiniFilter.FilterNameBufferOffset, one->filter->driver->name);
    return class == InstanceAggregateStandardInformation ? given(&texts, &info, sizeof info, returned) : STATUS_INVALID_PARAMETER;
}

static uint32_t instances_of(PFLT_FILTER filter)
{
    uint32_t count = 0;
    for (size_t at = 0; at < kz.instances_count; at++)
        count += kz.instances[at]->filter == filter && kz_phase(kz.instances[at]) == KZP_INSTANCE_ATTACHED;
    return count;
}

NTSTATUS kz_give_filter(void *found, uint32_t class, uint8_t *room, uint32_t size, uint32_t *returned)
{
    PFLT_FILTER one = found;
    if (class == FilterFullInformation) {
        FILTER_FULL_INFORMATION info = {.NumberOfInstances = instances_of(one)};
        uint16_t unused;
        Texts texts = {room, offsetof(FILTER_FULL_INFORMATION, FilterNameBuffer), size};
        put_text(&texts, &info.FilterNameLength, &unused, one->driver->name);
        return given(&texts, &info, offsetof(FILTER_FULL_INFORMATION, FilterNameBuffer), returned);
    }
    if (class == FilterAggregateBasicInformation) {
        FILTER_AGGREGATE_BASIC_INFORMATION info = {.Flags = FLTFL_AGGREGATE_INFO_IS_MINIFILTER, .Type.MiniFilter.NumberOfInstances = instances_of(one)};
        Texts texts = {room, sizeof info, size};
        put_text(&texts, &info.Type.MiniFilter.FilterNameLength, &info.Type.MiniFilter.FilterNameBufferOffset, one->driver->name);
        put_text(&texts, &info.Type.MiniFilter.FilterAltitudeLength, &info.Type.MiniFilter.FilterAltitudeBufferOffset, one->altitude);
        return given(&texts, &info, sizeof info, returned);
    }
    FILTER_AGGREGATE_STANDARD_INFORMATION info = {.Flags = FLTFL_AGGREGATE_INFO_IS_MINIFILTER, .Type.MiniFilter.NumberOfInstances = instances_of(one)};
    Texts texts = {room, sizeof info, size};
    put_text(&texts, &info.Type.MiniFilter.FilterNameLength, &info.Type.MiniFilter.FilterNameBufferOffset, one->driver->name);
    put_text(&texts, &info.Type.MiniFilter.FilterAltitudeLength, &info.Type.MiniFilter.FilterAltitudeBufferOffset, one->altitude);
    return class == FilterAggregateStandardInformation ? given(&texts, &info, sizeof info, returned) : STATUS_INVALID_PARAMETER;
}

NTSTATUS kz_give_volume(void *found, uint32_t class, uint8_t *room, uint32_t size, uint32_t *returned)
{
    PFLT_VOLUME one = found;
    uint16_t unused;
    char name[64];
    volume_name(name, sizeof name, one);
    if (class == FilterVolumeBasicInformation) {
        FILTER_VOLUME_BASIC_INFORMATION info = {0};
        Texts texts = {room, offsetof(FILTER_VOLUME_BASIC_INFORMATION, FilterVolumeName), size};
        put_text(&texts, &info.FilterVolumeNameLength, &unused, name);
        return given(&texts, &info, offsetof(FILTER_VOLUME_BASIC_INFORMATION, FilterVolumeName), returned);
    }
    FILTER_VOLUME_STANDARD_INFORMATION info = {.FileSystemType = one->type};
    Texts texts = {room, offsetof(FILTER_VOLUME_STANDARD_INFORMATION, FilterVolumeName), size};
    put_text(&texts, &info.FilterVolumeNameLength, &unused, name);
    return class == FilterVolumeStandardInformation ? given(&texts, &info, offsetof(FILTER_VOLUME_STANDARD_INFORMATION, FilterVolumeName), returned) : STATUS_INVALID_PARAMETER;
}

/* ---- Of one that is known. */
static NTSTATUS tell(KzGive *give, void *found, uint32_t class, PVOID room, ULONG size, PULONG returned)
{
    uint32_t used = 0;
    NTSTATUS status = give(found, class, room, size, &used);
    *returned = used;
    return status;
}

NTSTATUS FltGetInstanceInformation(PFLT_INSTANCE Instance, INSTANCE_INFORMATION_CLASS InformationClass, PVOID Buffer, ULONG BufferSize, PULONG BytesReturned)
{
    KZ_CALL();
    return kz_may_use(__func__, Instance) ? tell(kz_give_instance, Instance, InformationClass, Buffer, BufferSize, BytesReturned) : STATUS_INVALID_PARAMETER;
}

NTSTATUS FltGetFilterInformation(PFLT_FILTER Filter, FILTER_INFORMATION_CLASS InformationClass, PVOID Buffer, ULONG BufferSize, PULONG BytesReturned)
{
    KZ_CALL();
    return kz_is_filter(Filter) ? tell(kz_give_filter, Filter, InformationClass, Buffer, BufferSize, BytesReturned) : STATUS_INVALID_PARAMETER;
}

static bool is_volume(const void *volume)
{
    for (size_t at = 0; at < kz.volumes_count; at++)
        if (kz.volumes[at] == volume)
            return true;
    return false;
}

NTSTATUS FltGetVolumeInformation(PFLT_VOLUME Volume, FILTER_VOLUME_INFORMATION_CLASS InformationClass, PVOID Buffer, ULONG BufferSize, PULONG BytesReturned)
{
    KZ_CALL();
    return is_volume(Volume) ? tell(kz_give_volume, Volume, InformationClass, Buffer, BufferSize, BytesReturned) : STATUS_INVALID_PARAMETER;
}

/* ---- Each by its place: the highest first. */
static NTSTATUS tell_at(KzGive *give, void *found, uint32_t class, PVOID room, ULONG size, PULONG returned)
{
    *returned = 0;
    return found ? tell(give, found, class, room, size, returned) : STATUS_NO_MORE_ENTRIES;
}

/* How many of the instances stand above it. */
static ULONG above(PFLT_INSTANCE instance, PFLT_FILTER filter, PFLT_VOLUME volume)
{
    ULONG count = 0;
    for (size_t at = 0; at < kz.instances_count; at++) {
        PFLT_INSTANCE one = kz.instances[at];
        int order = kz_compare_altitudes(one->altitude, instance->altitude);
        bool is_listed = kz_phase(one) == KZP_INSTANCE_ATTACHED && (!filter || one->filter == filter) && (!volume || one->volume == volume);
        count += is_listed && (order > 0 || (order == 0 && one->id < instance->id));
    }
    return count;
}

static PFLT_INSTANCE instance_at(PFLT_FILTER filter, PFLT_VOLUME volume, ULONG index)
{
    for (size_t at = 0; at < kz.instances_count; at++) {
        PFLT_INSTANCE one = kz.instances[at];
        bool is_listed = kz_phase(one) == KZP_INSTANCE_ATTACHED && (!filter || one->filter == filter) && (!volume || one->volume == volume);
        if (is_listed && above(one, filter, volume) == index)
            return one;
    }
    return NULL;
}

NTSTATUS FltEnumerateInstanceInformationByFilter(PFLT_FILTER Filter, ULONG Index, INSTANCE_INFORMATION_CLASS InformationClass, PVOID Buffer, ULONG BufferSize, PULONG BytesReturned)
{
    KZ_CALL();
    return tell_at(kz_give_instance, instance_at(Filter, NULL, Index), InformationClass, Buffer, BufferSize, BytesReturned);
}

NTSTATUS FltEnumerateInstanceInformationByVolume(PFLT_VOLUME Volume, ULONG Index, INSTANCE_INFORMATION_CLASS InformationClass, PVOID Buffer, ULONG BufferSize, PULONG BytesReturned)
{
    KZ_CALL();
    return tell_at(kz_give_instance, instance_at(NULL, Volume, Index), InformationClass, Buffer, BufferSize, BytesReturned);
}

static PFLT_VOLUME volume_named(PCUNICODE_STRING name)
{
    char text[128], own[64];
    kz_narrow(text, sizeof text, name);
    for (size_t at = 0; at < kz.volumes_count; at++) {
        volume_name(own, sizeof own, kz.volumes[at]);
        if (KzStricmp(text, own) == 0)
            return kz.volumes[at];
    }
    return NULL;
}

NTSTATUS FltEnumerateInstanceInformationByVolumeName(PUNICODE_STRING VolumeName, ULONG Index, INSTANCE_INFORMATION_CLASS InformationClass, PVOID Buffer, ULONG BufferSize,
                                                     PULONG BytesReturned)
{
    KZ_CALL();
    PFLT_VOLUME volume = volume_named(VolumeName);
    *BytesReturned = 0;
    return volume ? tell_at(kz_give_instance, instance_at(NULL, volume, Index), InformationClass, Buffer, BufferSize, BytesReturned) : STATUS_FLT_VOLUME_NOT_FOUND;
}

NTSTATUS FltEnumerateFilterInformation(ULONG Index, FILTER_INFORMATION_CLASS InformationClass, PVOID Buffer, ULONG BufferSize, PULONG BytesReturned)
{
    KZ_CALL();
    PFLT_FILTER found = NULL;
    for (size_t at = 0; at < kz.filters_count && !found; at++)
        if (kz_filter_phase(kz.filters[at]) == KZP_FILTER_LOADED && Index-- == 0)
            found = kz.filters[at];
    return tell_at(kz_give_filter, found, InformationClass, Buffer, BufferSize, BytesReturned);
}

NTSTATUS FltEnumerateVolumeInformation(PFLT_FILTER Filter, ULONG Index, FILTER_VOLUME_INFORMATION_CLASS InformationClass, PVOID Buffer, ULONG BufferSize, PULONG BytesReturned)
{
    KZ_CALL();
    (void)Filter;
    PFLT_VOLUME found = NULL;
    for (size_t at = 0; at < kz.volumes_count && !found; at++)
        if (!kz.volumes[at]->is_dismounting && Index-- == 0)
            found = kz.volumes[at];
    return tell_at(kz_give_volume, found, InformationClass, Buffer, BufferSize, BytesReturned);
}
