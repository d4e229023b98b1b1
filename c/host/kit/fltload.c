/* A driver loads another filter, or unloads it: FltLoadFilter and FltUnloadFilter, each inside the call. */
#include "core/client.h"
#include "core/place.h"
#include "core/state.h"
#include "core/status.h"
#include "core/told.h"
#include "lib/letters.h"
#include "manager/filter.h"
#include "manager/hand.h"

/* In whatever callback its caller is, another worker does it. */
NTSTATUS FltLoadFilter(PCUNICODE_STRING FilterName)
{
    KZ_CALL();
    char name[80];
    uint64_t number;
    NTSTATUS other;
    kz_narrow(name, sizeof name, FilterName);
    KzPlace before = kz_me->place;
    uint8_t worker = kz_helper();
    kz_me->place.worker = worker;
    uint32_t status = kz_load_inside(name, "", &number, &other);
    kz_me->place = before;
    kz_helped(worker);
    if (status == KZS_NO_FILTER)
        return STATUS_OBJECT_NAME_NOT_FOUND; /* no service of that name */
    return other ? other : kz_ntstatus(status);
}

static PFLT_FILTER loaded(const char *name)
{
    for (size_t at = kz.filters_count; at-- > 0;)
        if (KzStricmp(kz.filters[at]->driver->name, name) == 0 && kz_filter_phase(kz.filters[at]) == KZP_FILTER_LOADED)
            return kz.filters[at];
    return NULL;
}

/* In the kit the call waits for what is in flight. Here who is in a callback of the filter would wait for itself. */
NTSTATUS FltUnloadFilter(PCUNICODE_STRING FilterName)
{
    KZ_CALL();
    char name[80];
    kz_narrow(name, sizeof name, FilterName);
    PFLT_FILTER filter = loaded(name);
    if (!filter)
        return STATUS_FLT_FILTER_NOT_FOUND;
    if (filter == kz_me->place.filter) {
        kz_tell(KZM_ATTACH, __func__, "of the caller's own filter: it answers STATUS_NOT_SUPPORTED");
        return STATUS_NOT_SUPPORTED;
    }
    KzPlace before = kz_me->place;
    uint8_t worker = kz_helper();
    kz_me->place.worker = worker;
    uint32_t status = kz_unload(filter);
    kz_me->place = before;
    kz_helped(worker);
    if (status == KZS_BUSY)
        kz_tell(KZM_ATTACH, __func__, "something of the filter is in flight: it stays in its teardown, and the call doesn't wait");
    return kz_ntstatus(status);
}
