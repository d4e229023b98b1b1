/* Contexts of files, one for each instance and file, whatever its streams, and of transactions. The manager has none, so the host links them and counts their references. */
#include "manager/filecontext.h"

#include "core/client.h"
#include "core/memory.h"
#include "core/module.h"
#include "core/state.h"
#include "core/told.h"
#include "filesystem/fileobject.h"
#include "filesystem/name.h"
#include "filesystem/tree.h"
#include "filesystem/version.h"
#include "manager/instance.h"
#include "manager/registration.h"

#include <stdlib.h>

/* A context that is a file's, by the key of the file without its streams, or a transaction's, by its number. */
typedef struct Link {
    struct Link *next;
    PFLT_INSTANCE instance;
    char key[256];
    KzContext *context;
} Link;

struct KzFileContextState {
    Link *first;
};

/* ---- Which file: all its streams have the key of the unnamed one. */
static bool key_of(const KzFile *file, char *key, size_t size)
{
    if (file->name)
        snprintf(key, size, "%s", file->name->file->streams->key);
    return file->name;
}

static void key_of_transaction(const struct _KTRANSACTION *transaction, char *key, size_t size)
{
    snprintf(key, size, "transaction %u", transaction->number);
}

static Link **place_of(PFLT_INSTANCE instance, const char *key)
{
    Link **at = &kz.filecontext->first;
    while (*at && !((*at)->instance == instance && strcmp((*at)->key, key) == 0))
        at = &(*at)->next;
    return at;
}

/* The file of an instance's call, and its key; else what the call answers. */
static NTSTATUS find_file(PFLT_INSTANCE instance, PFILE_OBJECT object, char *key, size_t size, const char *call)
{
    const KzFile *file = kz_may_use(call, instance) ? kz_file_with(object) : NULL;
    if (!instance || !file)
        return STATUS_INVALID_PARAMETER;
    bool is_opened = object->FsContext && (file->has_handle || file->is_opening);
    return is_opened && key_of(file, key, size) ? STATUS_SUCCESS : STATUS_NOT_SUPPORTED;
}

/* ---- Links. */
static void take(KzContext *context, PFLT_CONTEXT *to)
{
    if (!to)
        return;
    kz_scheduler->touch(context, 0, KZT_TAKES);
    kz_keep_reference(context, &kz_me->place);
    *to = context->body;
}

/* Its link goes; with its last reference it goes itself. */
static void end_link(Link **at)
{
    Link *gone = *at;
    KzContext *context = gone->context;
    *at = gone->next;
    free(gone);
    context->is_linked = false;
    kz_end_unused(context);
}

void kz_unlink_context(KzContext *context)
{
    Link **at = &kz.filecontext->first;
    while (*at && (*at)->context != context)
        at = &(*at)->next;
    if (*at)
        end_link(at);
}

void kz_end_file(const KzFile *file)
{
    char key[256], other[256];
    if (!kz.filecontext->first || !key_of(file, key, sizeof key))
        return;
    for (const KzFile *one = kz.files; one; one = one->next)
        if (one != file && one->volume == file->volume && (one->has_handle || one->is_opening) && key_of(one, other, sizeof other) && strcmp(key, other) == 0)
            return;
    for (Link **at = &kz.filecontext->first; *at;)
        if ((*at)->instance->volume == file->volume && strcmp((*at)->key, key) == 0) {
            end_link(at);
            at = &kz.filecontext->first; /* the cleanup callback may have changed others */
        } else {
            at = &(*at)->next;
        }
}

void kz_end_member(KzMember **at)
{
    KzMember *gone = *at;
    KzContext *context = gone->context;
    *at = gone->next;
    free(gone);
    kz_scheduler->touch(context, 0, KZT_GIVES);
    kz_drop_reference(context);
    kz_end_unused(context);
}

void kz_end_links_of(PFLT_INSTANCE instance)
{
    Link **at = &kz.filecontext->first;
    for (PKTRANSACTION one = kz_transaction_of(instance); one; one = kz_transaction_of(instance))
        kz_end_member(kz_member_of(one, instance));
    while (*at)
        if ((*at)->instance == instance) {
            end_link(at);
            at = &kz.filecontext->first;
        } else {
            at = &(*at)->next;
        }
}

void kz_end_transaction_contexts(PKTRANSACTION transaction)
{
    char key[256];
    key_of_transaction(transaction, key, sizeof key);
    for (Link **at = &kz.filecontext->first; *at;)
        if (strcmp((*at)->key, key) == 0) {
            end_link(at);
            at = &kz.filecontext->first;
        } else {
            at = &(*at)->next;
        }
}

/* ---- The calls. */
/* The transaction of an instance's call, and its key; else what the call answers. */
static NTSTATUS find_transaction(PFLT_INSTANCE instance, PKTRANSACTION transaction, char *key, size_t size, const char *call)
{
    if (!kz_may_use(call, instance) || !instance || !kz_is_transaction(transaction))
        return STATUS_INVALID_PARAMETER;
    key_of_transaction(transaction, key, size);
    return transaction->step == KZ_IS_OVER ? STATUS_TRANSACTION_NOT_ACTIVE : STATUS_SUCCESS;
}

NTSTATUS kz_check_context(PFLT_INSTANCE instance, const KzContext *context, FLT_CONTEXT_TYPE type, const char *call)
{
    if (!context)
        return STATUS_INVALID_PARAMETER;
    if (context->type != type) {
        kz_tell(KZM_OTHER_KIND, call, "%s context", kz_context_kinds[context->kind]);
        return STATUS_INVALID_PARAMETER;
    }
    if (!context->kept && !context->is_linked) {
        kz_tell(KZM_NOT_REFERENCED, call, "%s context to which no reference is held", kz_context_kinds[context->kind]);
        return STATUS_INVALID_PARAMETER;
    }
    uint64_t phase = kz_phase(instance);
    return phase == KZP_INSTANCE_SETUP || phase == KZP_INSTANCE_ATTACHED ? STATUS_SUCCESS : STATUS_FLT_DELETING_OBJECT;
}

/* What is to be linked, by that key. */
typedef struct {
    PFLT_INSTANCE instance;
    FLT_CONTEXT_TYPE type;
    FLT_SET_CONTEXT_OPERATION operation;
    const char *key, *call;
} Setting;

static NTSTATUS set(const Setting *how, PFLT_CONTEXT fresh, PFLT_CONTEXT *old)
{
    KzContext *context = kz_context_of(fresh, how->call);
    NTSTATUS status = context && context->is_linked && context->type == how->type ? STATUS_FLT_CONTEXT_ALREADY_LINKED : kz_check_context(how->instance, context, how->type, how->call);
    if (!NT_SUCCESS(status))
        return status;
    Link **at = place_of(how->instance, how->key);
    if (*at) {
        take((*at)->context, old);
        if (how->operation == FLT_SET_CONTEXT_KEEP_IF_EXISTS)
            return STATUS_FLT_CONTEXT_ALREADY_DEFINED;
        end_link(at);
    }
    Link *made = kz_memory(sizeof *made);
    *made = (Link){.next = kz.filecontext->first, .instance = how->instance, .context = context};
    snprintf(made->key, sizeof made->key, "%s", how->key);
    kz.filecontext->first = made;
    context->is_linked = true;
    kz_scheduler->touch(context, 0, KZT_GIVES);
    return STATUS_SUCCESS;
}

static NTSTATUS get(PFLT_INSTANCE instance, const char *key, PFLT_CONTEXT *to)
{
    Link *found = *place_of(instance, key);
    if (found)
        take(found->context, to);
    return found ? STATUS_SUCCESS : STATUS_NOT_FOUND;
}

static NTSTATUS take_off(PFLT_INSTANCE instance, const char *key, PFLT_CONTEXT *old)
{
    Link **at = place_of(instance, key);
    if (!*at)
        return STATUS_NOT_FOUND;
    take((*at)->context, old);
    end_link(at);
    return STATUS_SUCCESS;
}

NTSTATUS FltSetFileContext(PFLT_INSTANCE Instance, PFILE_OBJECT FileObject, FLT_SET_CONTEXT_OPERATION Operation, PFLT_CONTEXT NewContext, PFLT_CONTEXT *OldContext)
{
    KZ_CALL();
    char key[256];
    if (OldContext)
        *OldContext = NULL;
    NTSTATUS status = find_file(Instance, FileObject, key, sizeof key, __func__);
    return NT_SUCCESS(status) ? set(&(Setting){Instance, FLT_FILE_CONTEXT, Operation, key, __func__}, NewContext, OldContext) : status;
}

NTSTATUS FltGetFileContext(PFLT_INSTANCE Instance, PFILE_OBJECT FileObject, PFLT_CONTEXT *Context)
{
    KZ_CALL();
    char key[256];
    *Context = NULL;
    NTSTATUS status = find_file(Instance, FileObject, key, sizeof key, __func__);
    return NT_SUCCESS(status) ? get(Instance, key, Context) : status;
}

NTSTATUS FltDeleteFileContext(PFLT_INSTANCE Instance, PFILE_OBJECT FileObject, PFLT_CONTEXT *OldContext)
{
    KZ_CALL();
    char key[256];
    if (OldContext)
        *OldContext = NULL;
    NTSTATUS status = find_file(Instance, FileObject, key, sizeof key, __func__);
    return NT_SUCCESS(status) ? take_off(Instance, key, OldContext) : status;
}

NTSTATUS FltSetTransactionContext(PFLT_INSTANCE Instance, PKTRANSACTION Transaction, FLT_SET_CONTEXT_OPERATION Operation, PFLT_CONTEXT NewContext,
                                  PFLT_CONTEXT *OldContext)
{
    KZ_CALL();
    char key[256];
    if (OldContext)
        *OldContext = NULL;
    NTSTATUS status = find_transaction(Instance, Transaction, key, sizeof key, __func__);
    return NT_SUCCESS(status) ? set(&(Setting){Instance, FLT_TRANSACTION_CONTEXT, Operation, key, __func__}, NewContext, OldContext) : status;
}

NTSTATUS FltGetTransactionContext(PFLT_INSTANCE Instance, PKTRANSACTION Transaction, PFLT_CONTEXT *Context)
{
    KZ_CALL();
    char key[256];
    *Context = NULL;
    NTSTATUS status = find_transaction(Instance, Transaction, key, sizeof key, __func__);
    return NT_SUCCESS(status) ? get(Instance, key, Context) : status;
}

NTSTATUS FltDeleteTransactionContext(PFLT_INSTANCE Instance, PKTRANSACTION Transaction, PFLT_CONTEXT *OldContext)
{
    KZ_CALL();
    char key[256];
    if (OldContext)
        *OldContext = NULL;
    NTSTATUS status = find_transaction(Instance, Transaction, key, sizeof key, __func__);
    return NT_SUCCESS(status) ? take_off(Instance, key, OldContext) : status;
}

static void free_links(void)
{
    while (kz.filecontext->first) {
        Link *gone = kz.filecontext->first;
        kz.filecontext->first = gone->next;
        free(gone);
    }
}

const KzModule kz_filecontext_module = {KZ_STATE(filecontext), .free = free_links};
