/* Resources: locks that an owner may take again, and that many may read under. */
#include "core/access.h"
#include "core/client.h"
#include "core/held.h"
#include "core/made.h"
#include "core/told.h"

/* A thread of the system isn't suspended: those of programs are looked at, in callbacks of their operations. */
static void check_resource(PERESOURCE resource, const char *call)
{
    kz_is_made(resource, "a resource", call);
    bool is_program = kz_me->process != 4 && kz_me->place.op;
    if (is_program && !kz_are_apcs_disabled())
        kz_tell_of(resource, KZM_APCS_ENABLED, call, "called with normal kernel APCs enabled (no KeEnterCriticalRegion)");
}

BOOLEAN ExAcquireResourceExclusiveLite(PERESOURCE Resource, BOOLEAN Wait)
{
    KZ_CALL_ALONE();
    check_resource(Resource, __func__);
    if (!Wait)
        return KzTryTake(Resource, KZ_AGAIN, PASSIVE_LEVEL, __func__);
    KzTake(Resource, KZ_AGAIN, PASSIVE_LEVEL, __func__);
    return TRUE;
}

/* One that isn't waited for is taken where the same call with a wait would be there at once. */
static BOOLEAN take_shared(PERESOURCE Resource, BOOLEAN Wait, int how, const char *call)
{
    check_resource(Resource, call);
    if (!Wait)
        return KzTryTake(Resource, how, PASSIVE_LEVEL, call);
    KzTake(Resource, how, PASSIVE_LEVEL, call);
    return TRUE;
}

BOOLEAN ExAcquireResourceSharedLite(PERESOURCE Resource, BOOLEAN Wait)
{
    KZ_CALL_ALONE();
    return take_shared(Resource, Wait, KZ_SHARED_AGAIN, __func__);
}

BOOLEAN ExAcquireSharedStarveExclusive(PERESOURCE Resource, BOOLEAN Wait)
{
    KZ_CALL_ALONE();
    return take_shared(Resource, Wait, KZ_SHARED_FIRST, __func__);
}

BOOLEAN ExAcquireSharedWaitForExclusive(PERESOURCE Resource, BOOLEAN Wait)
{
    KZ_CALL_ALONE();
    return take_shared(Resource, Wait, KZ_SHARED_LAST, __func__);
}

VOID ExReleaseResourceLite(PERESOURCE Resource)
{
    KZ_CALL_ALONE();
    KzLetGo(Resource, __func__);
}

VOID ExReleaseResourceForThreadLite(PERESOURCE Resource, ERESOURCE_THREAD ResourceThreadId)
{
    KZ_CALL_ALONE();
    (void)ResourceThreadId;
    KzLetGo(Resource, __func__);
}

VOID ExConvertExclusiveToSharedLite(PERESOURCE Resource)
{
    KZ_CALL();
    if (!kz_share_lock(Resource))
        kz_tell(KZM_LOCK_NOT_HELD, __func__, "the resource isn't held exclusively");
}

/* ---- From their making to their end. */
NTSTATUS ExInitializeResourceLite(PERESOURCE Resource)
{
    KZ_INSIDE_ALONE();
    kz_uses_bytes(Resource, sizeof *Resource, KZU_WRITES);
    memset(Resource, 0, sizeof *Resource);
    kz_must_be_there(Resource, "a resource", __func__);
    kz_made(Resource, "a resource", __func__, "ExDeleteResourceLite");
    return STATUS_SUCCESS;
}

NTSTATUS ExReinitializeResourceLite(PERESOURCE Resource)
{
    KZ_INSIDE_ALONE();
    kz_uses_bytes(Resource, sizeof *Resource, KZU_WRITES);
    kz_is_made(Resource, "a resource", __func__);
    memset(Resource, 0, sizeof *Resource);
    return STATUS_SUCCESS;
}

NTSTATUS ExDeleteResourceLite(PERESOURCE Resource)
{
    KZ_CALL();
    KzForgetLock(Resource, __func__);
    if (!kz_unmade(Resource))
        kz_tell_of(Resource, KZM_STILL_MADE, __func__, "no resource (deleted twice?)");
    return STATUS_SUCCESS;
}
