/* A program loads, unloads, attaches and detaches filters, and asks which are there. */
#include "user/manage.h"

#include "core/client.h"
#include "core/memory.h"
#include "core/status.h"
#include "lib/letters.h"
#include "filesystem/folder.h"
#include "manager/altitude.h"
#include "manager/filter.h"
#include "manager/instance.h"
#include "kit/aggregate.h"
#include "kit/attach.h"
#include "user/error.h"
#include "user/object.h"
#include "user/program.h"

#include <stdlib.h>

static void narrow(char *room, size_t size, const WCHAR *text)
{
    UNICODE_STRING wide;
    RtlInitUnicodeString(&wide, text);
    kz_narrow(room, size, &wide);
}

static PFLT_FILTER filter_of(const WCHAR *name)
{
    char text[128];
    narrow(text, sizeof text, name);
    for (size_t at = kz.filters_count; at-- > 0;)
        if (KzStricmp(kz.filters[at]->driver->name, text) == 0 && kz_filter_phase(kz.filters[at]) != KZP_FILTER_NOT_LOADED)
            return kz.filters[at];
    return NULL;
}

/* By its device's name, its own name or its letter. */
static PFLT_VOLUME volume_of(const WCHAR *name)
{
    char text[128];
    narrow(text, sizeof text, name);
    for (size_t at = 0; at < kz.volumes_count; at++) {
        char device[64], letter[] = {(char)('C' + at), ':', 0};
        snprintf(device, sizeof device, "/Device/%s", kz.volumes[at]->name);
        size_t length = strlen(text) - (text[0] && text[strlen(text) - 1] == '/');
        const char *names[] = {device, kz.volumes[at]->name, letter};
        for (int which = 0; which < 3; which++)
            if (strlen(names[which]) == length && KzStrnicmp(names[which], text, length) == 0)
                return kz.volumes[at];
    }
    return NULL;
}

int32_t FilterLoad(const WCHAR *name);
int32_t FilterLoad(const WCHAR *name)
{
    char text[128];
    uint64_t number;
    NTSTATUS other = STATUS_SUCCESS;
    uint32_t status;
    {
        KZ_CALL();
        narrow(text, sizeof text, name);
        status = kz_load(text, "", &number, &other);
    }
    kz_go_on_or_end();
    return status == KZS_NO_FILTER ? (int32_t)0x80070002 : kz_hresult_of(other ? other : kz_ntstatus(status));
}

int32_t FilterUnload(const WCHAR *name);
int32_t FilterUnload(const WCHAR *name)
{
    NTSTATUS status = STATUS_FLT_FILTER_NOT_FOUND;
    {
        KZ_CALL();
        PFLT_FILTER filter = filter_of(name);
        if (filter)
            status = kz_ntstatus(kz_unload(filter));
    }
    kz_go_on_or_end();
    return kz_hresult_of(status);
}

static void put_name(WCHAR *room, uint32_t size, const char *name)
{
    for (uint32_t at = 0; room && at < size; at++) {
        room[at] = (UCHAR)name[at];
        if (!name[at])
            return;
    }
}

/* Without an altitude it gets that with which the filter was loaded. */
static NTSTATUS attach(const WCHAR *filter_name, const WCHAR *volume_name, const WCHAR *altitude, const WCHAR *instance_name, uint32_t size, WCHAR *room)
{
    char name[40], text[68];
    uint64_t number;
    PFLT_FILTER filter = filter_of(filter_name);
    PFLT_VOLUME volume = volume_of(volume_name);
    if (!filter || !volume)
        return filter ? STATUS_FLT_VOLUME_NOT_FOUND : STATUS_FLT_FILTER_NOT_FOUND;
    if (altitude)
        narrow(text, sizeof text, altitude);
    if (instance_name)
        narrow(name, sizeof name, instance_name);
    KzAttaching asked = {filter, volume, altitude ? text : NULL, instance_name ? name : NULL};
    NTSTATUS status = kz_attach_by_hand(&asked, &number);
    if (NT_SUCCESS(status))
        put_name(room, size, kz.instances[number]->name);
    return status;
}

int32_t FilterAttachAtAltitude(const WCHAR *filter, const WCHAR *volume, const WCHAR *altitude, const WCHAR *instance, uint32_t size, WCHAR *room);
int32_t FilterAttachAtAltitude(const WCHAR *filter, const WCHAR *volume, const WCHAR *altitude, const WCHAR *instance, uint32_t size, WCHAR *room)
{
    NTSTATUS status;
    {
        KZ_CALL();
        status = attach(filter, volume, altitude, instance, size, room);
    }
    kz_go_on_or_end();
    return kz_hresult_of(status);
}

int32_t FilterAttach(const WCHAR *filter, const WCHAR *volume, const WCHAR *instance, uint32_t size, WCHAR *room);
int32_t FilterAttach(const WCHAR *filter, const WCHAR *volume, const WCHAR *instance, uint32_t size, WCHAR *room)
{
    return FilterAttachAtAltitude(filter, volume, NULL, instance, size, room);
}

static NTSTATUS detach(const WCHAR *filter_name, const WCHAR *volume_name, const WCHAR *instance_name)
{
    char name[40] = "";
    PFLT_FILTER filter = filter_of(filter_name);
    PFLT_VOLUME volume = volume_of(volume_name);
    if (!filter || !volume)
        return filter ? STATUS_FLT_VOLUME_NOT_FOUND : STATUS_FLT_FILTER_NOT_FOUND;
    if (instance_name)
        narrow(name, sizeof name, instance_name);
    PFLT_INSTANCE one = kz_instance_named(filter, volume, name);
    return one ? kz_ntstatus(kz_detach(one)) : STATUS_FLT_INSTANCE_NOT_FOUND;
}

int32_t FilterDetach(const WCHAR *filter, const WCHAR *volume, const WCHAR *instance);
int32_t FilterDetach(const WCHAR *filter, const WCHAR *volume, const WCHAR *instance)
{
    NTSTATUS status;
    {
        KZ_CALL();
        status = detach(filter, volume, instance);
    }
    kz_go_on_or_end();
    return kz_hresult_of(status);
}

int32_t FilterGetDosName(const WCHAR *volume_name, WCHAR *room, uint32_t size);
int32_t FilterGetDosName(const WCHAR *volume_name, WCHAR *room, uint32_t size)
{
    KZ_CALL();
    PFLT_VOLUME volume = volume_of(volume_name);
    if (!volume)
        return (int32_t)0x80070002;
    if (size < 3)
        return (int32_t)0x8007007a;
    const char letter[] = {(char)('C' + volume->id), ':', 0};
    put_name(room, size, letter);
    return 0;
}

/* ---- Lists. A list is of what is there at its first call. */
typedef struct KzFound {
    size_t count, next;
    void *all[64];
} Found;

void kz_free_found(KzObject *object)
{
    free(object->found);
}


/* One that doesn't fit is given by the next call. */
static int32_t give_next(KzObject *find, KzGive *give, uint32_t class, uint8_t *room, uint32_t size, uint32_t *returned)
{
    *returned = 0;
    if (!find)
        return (int32_t)0x80070006;
    if (find->found->next == find->found->count)
        return (int32_t)0x80070103; /* ERROR_NO_MORE_ITEMS */
    NTSTATUS status = give(find->found->all[find->found->next], class, room, size, returned);
    find->found->next += NT_SUCCESS(status);
    return kz_hresult_of(status);
}

static int32_t begin(Found *found, KzGive *give, uint32_t class, uint8_t *room, uint32_t size, uint32_t *returned, void **handle)
{
    *handle = (void *)(intptr_t)-1;
    KzObject *find = kz_new_object(KZU_FIND);
    find->found = found;
    int32_t answer = give_next(find, give, class, room, size, returned);
    if (answer == 0)
        *handle = find;
    else
        kz_close_object(find);
    return answer;
}

static int32_t end(void *handle)
{
    KZ_CALL_OF("FilterFindClose");
    KzObject *find = kz_object(handle, KZU_FIND);
    if (find)
        kz_close_object(find);
    return find ? 0 : (int32_t)0x80070006;
}

/* By their altitudes, the highest first, as fltmc has them. */
static Found *instances(PFLT_FILTER filter, PFLT_VOLUME volume)
{
    Found *found = kz_memory(sizeof *found);
    for (size_t at = 0; at < kz.instances_count && found->count < 64; at++) {
        PFLT_INSTANCE one = kz.instances[at];
        if ((filter && one->filter != filter) || (volume && one->volume != volume) || kz_phase(one) != KZP_INSTANCE_ATTACHED)
            continue;
        size_t place = found->count++;
        for (; place > 0 && kz_compare_altitudes(((PFLT_INSTANCE)found->all[place - 1])->altitude, one->altitude) < 0; place--)
            found->all[place] = found->all[place - 1];
        found->all[place] = one;
    }
    return found;
}

int32_t FilterFindFirst(uint32_t class, void *room, uint32_t size, uint32_t *returned, void **handle);
int32_t FilterFindFirst(uint32_t class, void *room, uint32_t size, uint32_t *returned, void **handle)
{
    KZ_CALL();
    Found *found = kz_memory(sizeof *found);
    for (size_t at = 0; at < kz.filters_count && found->count < 64; at++)
        if (kz_filter_phase(kz.filters[at]) != KZP_FILTER_NOT_LOADED)
            found->all[found->count++] = kz.filters[at];
    return begin(found, kz_give_filter, class, room, size, returned, handle);
}

int32_t FilterFindNext(void *handle, uint32_t class, void *room, uint32_t size, uint32_t *returned);
int32_t FilterFindNext(void *handle, uint32_t class, void *room, uint32_t size, uint32_t *returned)
{
    KZ_CALL();
    return give_next(kz_object(handle, KZU_FIND), kz_give_filter, class, room, size, returned);
}

int32_t FilterVolumeFindFirst(uint32_t class, void *room, uint32_t size, uint32_t *returned, void **handle);
int32_t FilterVolumeFindFirst(uint32_t class, void *room, uint32_t size, uint32_t *returned, void **handle)
{
    KZ_CALL();
    Found *found = kz_memory(sizeof *found);
    for (size_t at = 0; at < kz.volumes_count && found->count < 64; at++)
        if (!kz.volumes[at]->is_dismounting)
            found->all[found->count++] = kz.volumes[at];
    return begin(found, kz_give_volume, class, room, size, returned, handle);
}

int32_t FilterVolumeFindNext(void *handle, uint32_t class, void *room, uint32_t size, uint32_t *returned);
int32_t FilterVolumeFindNext(void *handle, uint32_t class, void *room, uint32_t size, uint32_t *returned)
{
    KZ_CALL();
    return give_next(kz_object(handle, KZU_FIND), kz_give_volume, class, room, size, returned);
}

int32_t FilterInstanceFindFirst(const WCHAR *filter, uint32_t class, void *room, uint32_t size, uint32_t *returned, void **handle);
int32_t FilterInstanceFindFirst(const WCHAR *filter, uint32_t class, void *room, uint32_t size, uint32_t *returned, void **handle)
{
    KZ_CALL();
    PFLT_FILTER one = filter_of(filter);
    return one ? begin(instances(one, NULL), kz_give_instance, class, room, size, returned, handle) : kz_hresult_of(STATUS_FLT_FILTER_NOT_FOUND);
}

int32_t FilterVolumeInstanceFindFirst(const WCHAR *volume, uint32_t class, void *room, uint32_t size, uint32_t *returned, void **handle);
int32_t FilterVolumeInstanceFindFirst(const WCHAR *volume, uint32_t class, void *room, uint32_t size, uint32_t *returned, void **handle)
{
    KZ_CALL();
    PFLT_VOLUME one = volume_of(volume);
    return one ? begin(instances(NULL, one), kz_give_instance, class, room, size, returned, handle) : kz_hresult_of(STATUS_FLT_VOLUME_NOT_FOUND);
}

int32_t FilterInstanceFindNext(void *handle, uint32_t class, void *room, uint32_t size, uint32_t *returned);
int32_t FilterInstanceFindNext(void *handle, uint32_t class, void *room, uint32_t size, uint32_t *returned)
{
    KZ_CALL();
    return give_next(kz_object(handle, KZU_FIND), kz_give_instance, class, room, size, returned);
}

int32_t FilterVolumeInstanceFindNext(void *handle, uint32_t class, void *room, uint32_t size, uint32_t *returned);
int32_t FilterVolumeInstanceFindNext(void *handle, uint32_t class, void *room, uint32_t size, uint32_t *returned)
{
    return FilterInstanceFindNext(handle, class, room, size, returned);
}

#define FIND_CLOSE(name)          \
    int32_t name(void *handle);   \
    int32_t name(void *handle)    \
    {                             \
        return end(handle);       \
    }
FIND_CLOSE(FilterFindClose)
FIND_CLOSE(FilterVolumeFindClose)
FIND_CLOSE(FilterInstanceFindClose)
FIND_CLOSE(FilterVolumeInstanceFindClose)
