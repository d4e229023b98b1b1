/* Name providers: the highest one below whoever asks says what the name is, and asks for its own by the same calls. Nothing of what it says is cached. */
#include "kit/provider.h"

#include "core/client.h"
#include "core/piece.h"
#include "core/place.h"
#include "core/state.h"
#include "lib/letters.h"
#include "manager/altitude.h"
#include "manager/context.h"
#include "manager/hand.h"
#include "manager/instance.h"

/* ---- The name that a provider is to fill. */
NTSTATUS FltCheckAndGrowNameControl(PFLT_NAME_CONTROL NameCtrl, USHORT NewSize)
{
    KZ_INSIDE_ALONE();
    kz_uses_bytes(NameCtrl, sizeof *NameCtrl, KZU_WRITES);
    PUNICODE_STRING name = &NameCtrl->Name;
    if (NewSize <= name->MaximumLength)
        return STATUS_SUCCESS;
    PVOID grown = kz_refuses(KZ_CHOICE_NAME, __func__) ? NULL : kz_take_memory(KZK_NAME, NewSize, 0, 0);
    if (!grown)
        return STATUS_INSUFFICIENT_RESOURCES;
    if (name->Length)
        memcpy(grown, name->Buffer, name->Length);
    kz_give_back(name->Buffer);
    name->Buffer = grown;
    name->MaximumLength = NewSize;
    return STATUS_SUCCESS;
}

static bool is_below(PFLT_INSTANCE one, const KzNameAsked *asked)
{
    int side = kz_compare_altitudes(one->altitude, asked->asker->altitude);
    return side < 0 || (side == 0 && asked->options & FLT_FILE_NAME_REQUEST_FROM_CURRENT_PROVIDER);
}

static PFLT_INSTANCE provider_of(const KzNameAsked *asked)
{
    PFLT_INSTANCE found = NULL;
    for (size_t at = 0; asked->asker && at < kz.instances_count; at++) {
        PFLT_INSTANCE one = kz.instances[at];
        bool is_one = one->volume == asked->file->volume && kz_phase(one) == KZP_INSTANCE_ATTACHED && one->filter->registration.GenerateFileNameCallback && is_below(one, asked);
        if (is_one && (!found || kz_compare_altitudes(one->altitude, found->altitude) > 0))
            found = one;
    }
    return found;
}

/* ---- Calling it. */
typedef struct {
    KzPlace before;
    uint8_t worker;
    unsigned depth;
} Call;

static Call begin(PFLT_INSTANCE provider, const KzNameAsked *asked, const void *function)
{
    Call call = {.worker = kz_helper()};
    call.before = kz_enter(KZ_IN_NAME, call.worker, provider->filter, provider, asked->op, asked->data);
    call.depth = kz_let_function("name provider", function);
    return call;
}

static void end(Call *call)
{
    kz_driver_returned(call->depth, "name provider returns");
    kz_keep_rest(NULL);
    kz_leave(call->before);
    kz_helped(call->worker);
    kz_clean_up();
}

static NTSTATUS generate(PFLT_INSTANCE provider, const KzNameAsked *asked, char *room, size_t size)
{
    FLT_NAME_CONTROL control = {{0, 0, NULL}};
    BOOLEAN is_cached = TRUE;
    PFLT_GENERATE_FILE_NAME function = provider->filter->registration.GenerateFileNameCallback;
    FLT_FILE_NAME_OPTIONS options = asked->options & ~(FLT_FILE_NAME_OPTIONS)FLT_FILE_NAME_REQUEST_FROM_CURRENT_PROVIDER;
    Call call = begin(provider, asked, function);
    NTSTATUS status = KZ_CALL_DRIVER(function, provider, &asked->file->object, asked->data, options, &is_cached, &control);
    end(&call);
    kz_narrow(room, size, &control.Name);
    if (kz_piece_of(control.Name.Buffer))
        kz_give_back(control.Name.Buffer);
    return status;
}

/* A part of a name that looks like a short one is asked for again: what the provider gives stands in its place. */
typedef struct {
    PFLT_INSTANCE provider;
    const KzNameAsked *asked;
    USHORT volume;
    PVOID context;
} Normalizing;

static void expand(Normalizing *now, const char *parent, const char *part, char *to, size_t size)
{
    const FLT_REGISTRATION *registered = &now->provider->filter->registration;
    PFLT_NORMALIZE_NAME_COMPONENT_EX with_file = registered->NormalizeNameComponentExCallback;
    PFLT_NORMALIZE_NAME_COMPONENT alone = registered->NormalizeNameComponentCallback;
    union {
        FILE_NAMES_INFORMATION names;
        UCHAR bytes[sizeof(FILE_NAMES_INFORMATION) + 512];
    } expanded = {.bytes = {0}};
    UNICODE_STRING directory, component;
    if (!kz_give_name(&directory, parent, false))
        return;
    if (kz_give_name(&component, part, false)) {
        Call call = begin(now->provider, now->asked, with_file ? (const void *)(uintptr_t)with_file : (const void *)(uintptr_t)alone);
        NTSTATUS status = with_file ? KZ_CALL_DRIVER(with_file, now->provider, &now->asked->file->object, &directory, now->volume, &component, &expanded.names, sizeof expanded, 0, &now->context)
                                    : KZ_CALL_DRIVER(alone, now->provider, &directory, now->volume, &component, &expanded.names, sizeof expanded, 0, &now->context);
        end(&call);
        UNICODE_STRING said = {(USHORT)expanded.names.FileNameLength, 0, expanded.names.FileName};
        if (NT_SUCCESS(status) && expanded.names.FileNameLength)
            kz_narrow(to, size, &said);
        kz_give_back(component.Buffer);
    }
    kz_give_back(directory.Buffer);
}

static void normalize(Normalizing *now, char *room, size_t size)
{
    char parent[KZ_WHOLE_PATH], part[KZ_WHOLE_PATH];
    size_t used = now->volume / sizeof(WCHAR);
    while (room[used]) {
        size_t length = strcspn(room + used + 1, "/");
        snprintf(parent, sizeof parent, "%.*s", (int)(used > now->volume / sizeof(WCHAR) ? used : used + 1), room); /* the root ends with a backslash */
        snprintf(part, sizeof part, "%.*s", (int)length, room + used + 1);
        if (strchr(part, '~')) {
            char rest[KZ_WHOLE_PATH], *behind = room + used + 1 + length;
            snprintf(rest, sizeof rest, "%s", behind);
            expand(now, parent, part, part, sizeof part);
            snprintf(room + used + 1, size - used - 1, "%s%s", part, rest);
        }
        used += 1 + strlen(part);
    }
}

static void normalize_all(PFLT_INSTANCE provider, const KzNameAsked *asked, char *room, size_t size)
{
    char device[64];
    const FLT_REGISTRATION *registered = &provider->filter->registration;
    int length = snprintf(device, sizeof device, "/Device/%s", asked->file->volume->name);
    Normalizing now = {provider, asked, (USHORT)((size_t)length * sizeof(WCHAR)), NULL};
    if (!(registered->NormalizeNameComponentCallback || registered->NormalizeNameComponentExCallback) || strncmp(room, device, (size_t)length) != 0 || room[length] != '/')
        return;
    normalize(&now, room, size);
    if (!now.context || !registered->NormalizeContextCleanupCallback)
        return;
    Call call = begin(provider, asked, (const void *)(uintptr_t)registered->NormalizeContextCleanupCallback);
    KZ_CALL_DRIVER(registered->NormalizeContextCleanupCallback, &now.context);
    end(&call);
}

bool kz_ask_provider(const KzNameAsked *asked, char *room, size_t size, NTSTATUS *status)
{
    PFLT_INSTANCE provider = provider_of(asked);
    if (!provider)
        return false;
    *status = generate(provider, asked, room, size);
    if (NT_SUCCESS(*status) && FltGetFileNameFormat(asked->options) == FLT_FILE_NAME_NORMALIZED)
        normalize_all(provider, asked, room, size);
    return true;
}

void kz_normalize_destination(const KzNameAsked *asked, char *room, size_t size)
{
    PFLT_INSTANCE provider = provider_of(asked);
    if (provider)
        normalize_all(provider, asked, room, size);
}
