/* Links of contexts to objects. The manager knows the objects of the callback alone; the host asks it for others of volumes and instances as from their own callback. */
#include "core/client.h"
#include "core/op.h"
#include "core/state.h"
#include "core/status.h"
#include "core/told.h"
#include "filesystem/fileobject.h"
#include "filesystem/name.h"
#include "manager/context.h"
#include "manager/filecontext.h"
#include "manager/instance.h"
#include "manager/taken.h"

/* That of a create which was sent down again is another operation's. */
static PFILE_OBJECT own_file(void)
{
    KzOp *op = kz_me->place.op;
    return op && !op->is_reopened ? &op->file->object : NULL;
}

static bool is_reopened(PFILE_OBJECT object)
{
    KzOp *op = kz_me->place.op;
    return op && op->is_reopened && &op->file->object == object && op->file->has_handle;
}

static bool is_own(PFLT_INSTANCE instance, PFLT_VOLUME volume, PFILE_OBJECT file)
{
    PFLT_INSTANCE own = kz_me->place.instance;
    return own && (!instance || instance == own) && (!volume || volume == own->volume) && (!file || file == own_file());
}

static bool is_object(PFLT_INSTANCE instance, PFLT_VOLUME volume, PFILE_OBJECT file)
{
    bool is_volume = !volume;
    for (size_t at = 0; at < kz.volumes_count; at++)
        is_volume |= kz.volumes[at] == volume;
    return is_volume && (!instance || kz_is_instance(instance)) && (!file || kz_file_with(file));
}

/* Tells that it is none of the callback's own objects. */
static NTSTATUS refuse(const char *call, PFLT_INSTANCE instance, PFLT_VOLUME volume, PFILE_OBJECT file)
{
    if (!kz_may_use(call, instance))
        return STATUS_INVALID_PARAMETER;
    if (!is_object(instance, volume, file)) {
        kz_tell(KZM_NO_FILTER_OBJECT, call, "no object of the filter manager");
        return STATUS_INVALID_PARAMETER;
    }
    kz_tell(KZM_NOT_OWN_OBJECT, call, "of an object that isn't the callback's own: it answers STATUS_NOT_SUPPORTED");
    return STATUS_NOT_SUPPORTED;
}

static PFLT_INSTANCE instance_on(PFLT_FILTER filter, PFLT_VOLUME volume)
{
    for (size_t at = 0; at < kz.instances_count; at++)
        if (kz.instances[at]->filter == filter && kz.instances[at]->volume == volume && kz_phase(kz.instances[at]) == KZP_INSTANCE_ATTACHED)
            return kz.instances[at];
    return NULL;
}

static bool is_held_elsewhere(const KzContext *context)
{
    uint8_t worker = 0;
    while (worker < KZ_WORKERS && !(worker != kz_worker() && kz_holds(worker, context)))
        worker++;
    return worker < KZ_WORKERS;
}

static NTSTATUS set(const char *call, uint8_t kind, FLT_SET_CONTEXT_OPERATION how, PFLT_CONTEXT body, PFLT_CONTEXT *old)
{
    KzContext *context = kz_context_of(body, call);
    if (!context)
        return STATUS_INVALID_PARAMETER;
    if (context->kind != kind) {
        kz_tell(KZM_OTHER_KIND, call, "%s context", kz_context_kinds[context->kind]);
        return STATUS_INVALID_PARAMETER;
    }
    if (!context->is_known) {
        uint32_t made = kz_make_known(context);
        if (made != KZS_OK) {
            kz_tell(KZM_KEPT_SET, call, "a context that was kept from another callback can't be set here: it answers STATUS_NOT_SUPPORTED");
            return STATUS_NOT_SUPPORTED;
        }
        kz_drop_reference(context);
    }
    kz_scheduler->touch(context, 0, KZT_GIVES);
    KazdrinEvent event = {.event = KZE_SET,
                          .slot = context->slot,
                          .generation = context->generation,
                          .mode = how == FLT_SET_CONTEXT_REPLACE_IF_EXISTS,
                          .flag = old != NULL};
    KzTold answer = kz_event(kz_worker(), event);
    uint32_t status = answer.status;
    if (old && (status == KZS_OK || status == KZS_ALREADY_DEFINED) && answer.told.has)
        *old = kz_taken_body(answer.told.slot, answer.told.generation);
    if (status == KZS_NOT_HELD && context->kept)
        return STATUS_FLT_CONTEXT_ALREADY_LINKED; /* the manager holds it by a link alone */
    if (status == KZS_NOT_HELD && is_held_elsewhere(context)) {
        kz_tell(KZM_KEPT_SET, call, "a context that another callback which runs holds can't be set here: it answers STATUS_NOT_SUPPORTED");
        return STATUS_NOT_SUPPORTED;
    }
    if (status == KZS_NOT_HELD)
        kz_tell(KZM_NOT_REFERENCED, call, "%s context to which no reference is held", kz_context_kinds[kind]);
    kz_tell_refused(call, status);
    kz_clean_up();
    return kz_ntstatus(status);
}

static NTSTATUS get(const char *call, uint8_t worker, uint8_t kind, PFLT_CONTEXT *found)
{
    KzTold answer = kz_event(worker, (KazdrinEvent){.event = KZE_GET, .kind = kind});
    if (answer.status == KZS_OK)
        *found = kz_taken_body(answer.told.slot, answer.told.generation);
    kz_tell_refused(call, answer.status);
    return kz_ntstatus(answer.status);
}

/* What has the contexts of that kind, of the callback's own objects. */
static const void *owner_of(uint8_t kind)
{
    const KzOp *op = kz_me->place.op;
    if (kind < 2)
        return kind ? (const void *)kz_me->place.instance : kz_me->place.instance->volume;
    if (!op || !op->file->name)
        return NULL;
    return kind == 2 ? (const void *)op->file->name->stream : &op->file->sections;
}

static void use_owner(uint8_t kind, KzUse how)
{
    if (!owner_of(kind))
        return;
    kz_uses_little();
    kz_scheduler->uses(owner_of(kind), how);
}

static NTSTATUS get_own(const char *call, uint8_t kind, PFLT_CONTEXT *found)
{
    use_owner(kind, KZU_READS);
    return get(call, kz_worker(), kind, found);
}

static NTSTATUS set_own(const char *call, uint8_t kind, FLT_SET_CONTEXT_OPERATION how, PFLT_CONTEXT body, PFLT_CONTEXT *old)
{
    use_owner(kind, KZU_WRITES);
    NTSTATUS status = set(call, kind, how, body, old);
    if (!NT_SUCCESS(status) && status != STATUS_FLT_CONTEXT_ALREADY_DEFINED)
        kz_uses_all();
    return status;
}

static NTSTATUS take_off(const char *call, uint8_t kind, PFLT_CONTEXT *old)
{
    KzTold answer = kz_event(kz_worker(), (KazdrinEvent){.event = KZE_DELETE, .kind = kind, .flag = old != NULL});
    if (old && answer.status == KZS_OK && answer.told.has)
        *old = kz_taken_body(answer.told.slot, answer.told.generation);
    kz_tell_refused(call, answer.status);
    kz_clean_up();
    return kz_ntstatus(answer.status);
}

/* That of an object that isn't the callback's own, in a routine of the filter's instance that has it. What is handed out the host keeps. */
static NTSTATUS in_routine(const char *call, uint8_t kind, PFLT_INSTANCE at, const KzFile *file, bool is_taken_off, PFLT_CONTEXT *found)
{
    uint8_t worker = kz_helper(), before = kz_me->place.worker;
    NTSTATUS status = STATUS_NOT_SUPPORTED;
    if (kz_enter_routine(at, file, worker)) {
        kz_me->place.worker = worker;
        status = is_taken_off ? take_off(call, kind, found) : get(call, worker, kind, found);
        kz_me->place.worker = before;
        if (found && *found) {
            kz_keep_reference(kz_context_with(*found), &kz_me->place);
            kz_forget_taken(*found);
        }
        kz_leave_routine(worker);
    }
    kz_helped(worker);
    return status;
}

static NTSTATUS elsewhere(const char *call, uint8_t kind, PFLT_INSTANCE instance, PFLT_VOLUME volume, PFILE_OBJECT object, bool is_taken_off, PFLT_CONTEXT *found)
{
    PFLT_INSTANCE at = instance ? instance : instance_on(kz_me->place.filter, volume);
    const KzFile *file = object ? kz_file_with(object) : NULL;
    NTSTATUS status = STATUS_NOT_SUPPORTED;
    if (is_object(instance, volume, object) && at && at->filter == kz_me->place.filter && (!object || (file && file->has_handle)))
        status = in_routine(call, kind, at, file, is_taken_off, found);
    return status == STATUS_NOT_SUPPORTED ? refuse(call, instance, volume, object) : status;
}

/* The callback's reference becomes the host's, the routine's, and the host's again. */
static void keep(const char *call, PFLT_CONTEXT body)
{
    KzContext *context = body ? kz_context_of(body, call) : NULL;
    if (!context || !context->is_known || !kz_holds(kz_worker(), context))
        return;
    kz_keep_reference(context, &kz_me->place);
    kz_forget_taken(body);
    kz_event(kz_worker(), (KazdrinEvent){.event = KZE_RELEASE, .slot = context->slot, .generation = context->generation});
    kz_clean_up();
}

/* On a file that another operation opened for this one: in a routine of the instance that has it. */
static NTSTATUS set_again(const char *call, uint8_t kind, PFLT_INSTANCE instance, FLT_SET_CONTEXT_OPERATION how, PFLT_CONTEXT body, PFLT_CONTEXT *old)
{
    NTSTATUS status = STATUS_NOT_SUPPORTED;
    keep(call, body);
    uint8_t worker = kz_helper(), before = kz_me->place.worker;
    if (kz_enter_routine(instance, kz_me->place.op->file, worker)) {
        kz_me->place.worker = worker;
        status = set(call, kind, how, body, old);
        keep(call, body);
        keep(call, old ? *old : NULL);
        kz_me->place.worker = before;
        kz_leave_routine(worker);
    }
    kz_helped(worker);
    return status;
}

NTSTATUS FltSetVolumeContext(PFLT_VOLUME Volume, FLT_SET_CONTEXT_OPERATION Operation, PFLT_CONTEXT NewContext, PFLT_CONTEXT *OldContext)
{
    KZ_CALL();
    if (OldContext)
        *OldContext = NULL;
    return is_own(NULL, Volume, NULL) ? set_own(__func__, 0, Operation, NewContext, OldContext) : refuse(__func__, NULL, Volume, NULL);
}

NTSTATUS FltSetInstanceContext(PFLT_INSTANCE Instance, FLT_SET_CONTEXT_OPERATION Operation, PFLT_CONTEXT NewContext, PFLT_CONTEXT *OldContext)
{
    KZ_CALL();
    if (OldContext)
        *OldContext = NULL;
    return is_own(Instance, NULL, NULL) ? set_own(__func__, 1, Operation, NewContext, OldContext) : refuse(__func__, Instance, NULL, NULL);
}

NTSTATUS FltSetStreamContext(PFLT_INSTANCE Instance, PFILE_OBJECT FileObject, FLT_SET_CONTEXT_OPERATION Operation, PFLT_CONTEXT NewContext,
                             PFLT_CONTEXT *OldContext)
{
    KZ_CALL();
    if (OldContext)
        *OldContext = NULL;
    if (Instance == kz_me->place.instance && is_reopened(FileObject))
        return set_again(__func__, 2, Instance, Operation, NewContext, OldContext);
    return is_own(Instance, NULL, FileObject) ? set_own(__func__, 2, Operation, NewContext, OldContext) : refuse(__func__, Instance, NULL, FileObject);
}

NTSTATUS FltSetStreamHandleContext(PFLT_INSTANCE Instance, PFILE_OBJECT FileObject, FLT_SET_CONTEXT_OPERATION Operation, PFLT_CONTEXT NewContext,
                                   PFLT_CONTEXT *OldContext)
{
    KZ_CALL();
    if (OldContext)
        *OldContext = NULL;
    if (Instance == kz_me->place.instance && is_reopened(FileObject))
        return set_again(__func__, 3, Instance, Operation, NewContext, OldContext);
    return is_own(Instance, NULL, FileObject) ? set_own(__func__, 3, Operation, NewContext, OldContext) : refuse(__func__, Instance, NULL, FileObject);
}

NTSTATUS FltGetVolumeContext(PFLT_FILTER Filter, PFLT_VOLUME Volume, PFLT_CONTEXT *Context)
{
    KZ_CALL();
    (void)Filter;
    *Context = NULL;
    return is_own(NULL, Volume, NULL) ? get_own(__func__, 0, Context) : elsewhere(__func__, 0, NULL, Volume, NULL, false, Context);
}

NTSTATUS FltGetInstanceContext(PFLT_INSTANCE Instance, PFLT_CONTEXT *Context)
{
    KZ_CALL();
    *Context = NULL;
    return is_own(Instance, NULL, NULL) ? get_own(__func__, 1, Context) : elsewhere(__func__, 1, Instance, NULL, NULL, false, Context);
}

NTSTATUS FltGetStreamContext(PFLT_INSTANCE Instance, PFILE_OBJECT FileObject, PFLT_CONTEXT *Context)
{
    KZ_CALL();
    *Context = NULL;
    return is_own(Instance, NULL, FileObject) ? get_own(__func__, 2, Context) : elsewhere(__func__, 2, Instance, NULL, FileObject, false, Context);
}

NTSTATUS FltGetStreamHandleContext(PFLT_INSTANCE Instance, PFILE_OBJECT FileObject, PFLT_CONTEXT *Context)
{
    KZ_CALL();
    *Context = NULL;
    return is_own(Instance, NULL, FileObject) ? get_own(__func__, 3, Context) : elsewhere(__func__, 3, Instance, NULL, FileObject, false, Context);
}

NTSTATUS FltDeleteVolumeContext(PFLT_FILTER Filter, PFLT_VOLUME Volume, PFLT_CONTEXT *OldContext)
{
    KZ_CALL();
    (void)Filter;
    if (OldContext)
        *OldContext = NULL;
    return is_own(NULL, Volume, NULL) ? take_off(__func__, 0, OldContext) : elsewhere(__func__, 0, NULL, Volume, NULL, true, OldContext);
}

NTSTATUS FltDeleteInstanceContext(PFLT_INSTANCE Instance, PFLT_CONTEXT *OldContext)
{
    KZ_CALL();
    if (OldContext)
        *OldContext = NULL;
    return is_own(Instance, NULL, NULL) ? take_off(__func__, 1, OldContext) : elsewhere(__func__, 1, Instance, NULL, NULL, true, OldContext);
}

NTSTATUS FltDeleteStreamContext(PFLT_INSTANCE Instance, PFILE_OBJECT FileObject, PFLT_CONTEXT *OldContext)
{
    KZ_CALL();
    if (OldContext)
        *OldContext = NULL;
    return is_own(Instance, NULL, FileObject) ? take_off(__func__, 2, OldContext) : elsewhere(__func__, 2, Instance, NULL, FileObject, true, OldContext);
}

NTSTATUS FltDeleteStreamHandleContext(PFLT_INSTANCE Instance, PFILE_OBJECT FileObject, PFLT_CONTEXT *OldContext)
{
    KZ_CALL();
    if (OldContext)
        *OldContext = NULL;
    return is_own(Instance, NULL, FileObject) ? take_off(__func__, 3, OldContext) : elsewhere(__func__, 3, Instance, NULL, FileObject, true, OldContext);
}

/* Takes a context off its object, if that is the callback's own. The caller's reference stays. */
VOID FltDeleteContext(PFLT_CONTEXT Context)
{
    KZ_CALL();
    KzContext *context = kz_context_of(Context, __func__);
    PFLT_CONTEXT there = NULL;
    if (context && context->type == FLT_FILE_CONTEXT) {
        kz_unlink_context(context);
        return;
    }
    if (!context || get(__func__, kz_worker(), context->kind, &there) != STATUS_SUCCESS)
        return;
    if (there == Context)
        kz_event(kz_worker(), (KazdrinEvent){.event = KZE_DELETE, .kind = context->kind});
    else
        kz_tell(KZM_NOT_OWN_OBJECT, __func__, "a context of an object that isn't the callback's own: it stays there");
    FltReleaseContext(there);
}
