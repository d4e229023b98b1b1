/* Names of files and volumes. */
#include "kit/names.h"

#include "core/access.h"
#include "core/client.h"
#include "core/memory.h"
#include "core/module.h"
#include "core/op.h"
#include "core/piece.h"
#include "core/place.h"
#include "core/told.h"
#include "lib/letters.h"
#include "filesystem/fileobject.h"
#include "filesystem/name.h"
#include "filesystem/rename.h"
#include "filesystem/tree.h"
#include "filesystem/volumes.h"
#include "manager/instance.h"
#include "manager/mount.h"
#include "manager/operation.h"
#include "kit/provider.h"

#include <stdio.h>
#include <stdlib.h>

/* What a driver is given lies in memory that is filled once it was released; until then it is the manager's. */
typedef struct Named {
    struct Named *next;
    PFLT_FILE_NAME_INFORMATION shown;
    KzPlace place;
    unsigned references;
    PVOID texts[2]; /* a driver may change what it is shown, though that is told */
} Named;

struct KzNameState {
    Named *first;
};

static void device_name(char *room, size_t size, PFLT_VOLUME volume)
{
    snprintf(room, size, "/Device/%s", volume->name);
}

static void free_named(Named *one)
{
    kz_give_back(one->texts[0]);
    kz_give_back(one->texts[1]);
    kz_give_back(one->shown);
    free(one);
}

static bool fill(Named *made, PFLT_VOLUME volume, const char *whole, FLT_FILE_NAME_OPTIONS options)
{
    char text[64];
    device_name(text, sizeof text, volume);
    bool is_there = kz_give_name(&made->shown->Volume, text, false);
    is_there &= kz_give_name(&made->shown->Name, whole, false);
    made->texts[0] = made->shown->Volume.Buffer;
    made->texts[1] = made->shown->Name.Buffer;
    made->shown->Size = sizeof *made->shown;
    made->shown->Format = options & FLT_VALID_FILE_NAME_FORMATS;
    return is_there;
}

/* Of its whole name. */
static NTSTATUS show_name(PFLT_VOLUME volume, const char *whole, FLT_FILE_NAME_OPTIONS options, PFLT_FILE_NAME_INFORMATION *shown)
{
    PFLT_FILE_NAME_INFORMATION room = kz_refuses(KZ_CHOICE_NAME, "FltGetFileNameInformation") ? NULL : kz_take_memory(KZK_NAME, sizeof *room, 0, 0);
    if (!room)
        return STATUS_INSUFFICIENT_RESOURCES;
    Named *made = kz_memory(sizeof *made);
    *made = (Named){.next = kz.name->first, .shown = room, .place = kz_me->place, .references = 1};
    if (!fill(made, volume, whole, options)) {
        free_named(made);
        return STATUS_INSUFFICIENT_RESOURCES;
    }
    kz_own(room, KZ_MANAGERS, 0);
    kz_own(made->texts[0], KZ_MANAGERS, 0);
    kz_own(made->texts[1], KZ_MANAGERS, 0);
    kz.name->first = made;
    *shown = room;
    return STATUS_SUCCESS;
}

static NTSTATUS name_of(PFLT_VOLUME volume, const char *path, FLT_FILE_NAME_OPTIONS options, PFLT_FILE_NAME_INFORMATION *shown)
{
    char whole[KZ_WHOLE_PATH];
    device_name(whole, sizeof whole, volume);
    snprintf(whole + strlen(whole), sizeof whole - strlen(whole), "/%s", path);
    return show_name(volume, whole, options, shown);
}

/* ---- Which name. That of a file that is open is the one that it has now; before that, as its create says it, or normalized: each part that is there as that is spelt. */
static void normalize(PFLT_VOLUME volume, const char *path, char *text, size_t size)
{
    char part[KZ_PATH];
    size_t used = 0;
    for (const char *end = path;; end++) {
        if (*end && *end != '/')
            continue;
        snprintf(part, sizeof part, "%.*s", (int)(end - path), path);
        const KzName *found = kz_find_name(volume, part);
        if (found && kz_exists(found))
            used = (size_t)snprintf(text, size, "%s", found->text);
        else
            used += (size_t)snprintf(text + used, size - used, "%s", part + (used < strlen(part) ? used : strlen(part)));
        if (!*end)
            return;
    }
}

static bool is_opening(const KzOp *op)
{
    return op->event == KZE_CREATE && !op->file->has_handle && !op->file->is_opening;
}

static void spell(const KzOp *op, FLT_FILE_NAME_OPTIONS format, char *text, size_t size)
{
    if (!is_opening(op))
        snprintf(text, size, "%s", kz_name_now(op->file));
    else if (format == FLT_FILE_NAME_NORMALIZED)
        normalize(op->volume, op->file->path, text, size);
    else
        snprintf(text, size, "%s", op->file->path);
}

/* Where the file system may wait for what the caller's own thread holds, the kit doesn't ask it. What its cache has may be asked for anywhere; in a close it has a file's name, so that
 * only who wants the file system's word, or asks by a file object, is wrong there. */
static bool is_unsafe(const KzOp *op, FLT_FILE_NAME_OPTIONS options, bool is_checked, const char *call)
{
    FLT_FILE_NAME_OPTIONS method = FltGetFileNameQueryMethod(options);
    bool asks_cache = method == FLT_FILE_NAME_QUERY_CACHE_ONLY || method == FLT_FILE_NAME_QUERY_ALWAYS_ALLOW_CACHE_LOOKUP;
    bool is_paging = op->own.irp_flags & IRP_PAGING_IO;
    bool is_closing = op->event == KZE_CLOSE && (!is_checked || method == FLT_FILE_NAME_QUERY_FILESYSTEM_ONLY);
    if (asks_cache || !(is_closing || is_paging))
        return false;
    kz_tell(KZM_NAME_QUERY, call, "asks the file system for a name %s: it may deadlock there", is_closing ? "in a close" : "in paging I/O");
    return true;
}

/* ---- The cache of names: what was asked for is in it until a rename, of a file that isn't open yet as long as its create is under way. */
static uint8_t *cached_of(KzFile *file, bool is_open)
{
    return is_open && file->name ? &file->name->cached : &file->cached;
}

static bool is_cache_miss(const uint8_t *cached, FLT_FILE_NAME_OPTIONS options)
{
    return FltGetFileNameQueryMethod(options) == FLT_FILE_NAME_QUERY_CACHE_ONLY && !(*cached & 1 << FltGetFileNameFormat(options));
}

static NTSTATUS note_cached(NTSTATUS status, uint8_t *cached, FLT_FILE_NAME_OPTIONS options)
{
    if (NT_SUCCESS(status) && FltGetFileNameQueryMethod(options) != FLT_FILE_NAME_QUERY_FILESYSTEM_ONLY)
        *cached |= (uint8_t)(1 << FltGetFileNameFormat(options));
    return status;
}

/* The names of the folder, and that it is in the cache from then on: others put it there as well. */
static void use_names(const uint8_t *cached, FLT_FILE_NAME_OPTIONS options)
{
    bool asks_cache = FltGetFileNameQueryMethod(options) == FLT_FILE_NAME_QUERY_CACHE_ONLY;
    kz_uses_little();
    kz_scheduler->uses(&kz.files, KZU_READS);
    kz_scheduler->uses(cached, asks_cache ? KZU_WRITES : KZU_ADDS);
}

NTSTATUS FltGetFileNameInformation(PFLT_CALLBACK_DATA CallbackData, FLT_FILE_NAME_OPTIONS NameOptions, PFLT_FILE_NAME_INFORMATION *FileNameInformation)
{
    KZ_CALL();
    *FileNameInformation = NULL;
    KzOp *op = kz_me->place.data == CallbackData && kz_me->place.op ? kz_me->place.op : kz_op_with(CallbackData);
    if (!op) {
        kz_tell(KZM_NOT_OWN_DATA, __func__, "callback data of no operation");
        return STATUS_INVALID_PARAMETER;
    }
    if (FltGetFileNameFormat(NameOptions) < FLT_FILE_NAME_NORMALIZED || FltGetFileNameFormat(NameOptions) > FLT_FILE_NAME_SHORT)
        return STATUS_INVALID_PARAMETER;
    if (is_unsafe(op, NameOptions, true, __func__))
        return STATUS_FLT_INVALID_NAME_REQUEST;
    if (op->opaque && op->opaque->has_no_file)
        return STATUS_INVALID_PARAMETER;
    if (is_opening(op) && FltGetFileNameFormat(NameOptions) == FLT_FILE_NAME_SHORT)
        return STATUS_FLT_INVALID_NAME_REQUEST;
    uint8_t *cached = cached_of(op->file, !is_opening(op));
    if (is_cache_miss(cached, NameOptions))
        return STATUS_FLT_NAME_CACHE_MISS;
    if (op->maker == kz_me->number)
        use_names(cached, NameOptions);
    char text[KZ_WHOLE_PATH];
    NTSTATUS status;
    PFLT_INSTANCE asker = kz_me->place.instance ? kz_me->place.instance : CallbackData->Iopb->TargetInstance;
    if (kz_ask_provider(&(KzNameAsked){asker, op->file, op, CallbackData, NameOptions}, text, sizeof text, &status))
        return NT_SUCCESS(status) ? show_name(op->volume, text, NameOptions, FileNameInformation) : status;
    spell(op, FltGetFileNameFormat(NameOptions), text, sizeof text);
    if (op->file->is_volume)
        device_name(text, sizeof text, op->volume);
    return note_cached(op->file->is_volume ? show_name(op->volume, text, NameOptions, FileNameInformation) : name_of(op->volume, text, NameOptions, FileNameInformation), cached, NameOptions);
}

NTSTATUS FltGetFileNameInformationUnsafe(PFILE_OBJECT FileObject, PFLT_INSTANCE Instance, FLT_FILE_NAME_OPTIONS NameOptions,
                                         PFLT_FILE_NAME_INFORMATION *FileNameInformation)
{
    KZ_CALL();
    *FileNameInformation = NULL;
    if (!kz_may_use(__func__, Instance))
        return STATUS_INVALID_PARAMETER;
    KzFile *file = kz_file_with(FileObject);
    const KzOp *op = kz_me->place.op;
    if (file && op && op->file == file && is_unsafe(op, NameOptions, false, __func__))
        return STATUS_FLT_INVALID_NAME_REQUEST;
    if (!file)
        return STATUS_INVALID_PARAMETER;
    if (op && op->file == file && is_opening(op)) {
        kz_tell(KZM_NOT_OPENED, __func__, "a file object that isn't open: its create isn't answered yet, or failed");
        return STATUS_FLT_INVALID_NAME_REQUEST;
    }
    uint8_t *cached = cached_of(file, true);
    if (is_cache_miss(cached, NameOptions))
        return STATUS_FLT_NAME_CACHE_MISS;
    char text[KZ_WHOLE_PATH];
    NTSTATUS status;
    if (kz_ask_provider(&(KzNameAsked){Instance, file, NULL, NULL, NameOptions}, text, sizeof text, &status))
        return NT_SUCCESS(status) ? show_name(file->volume, text, NameOptions, FileNameInformation) : status;
    return note_cached(name_of(file->volume, kz_name_now(file), NameOptions, FileNameInformation), cached, NameOptions);
}

/* Where a rename or a link leads to, by the buffer that the filter was given: so one below sees what one above put there. */
NTSTATUS FltGetDestinationFileNameInformation(PFLT_INSTANCE Instance, PFILE_OBJECT FileObject, HANDLE RootDirectory, PWSTR FileName, ULONG FileNameLength,
                                              FLT_FILE_NAME_OPTIONS NameOptions, PFLT_FILE_NAME_INFORMATION *RetFileNameInformation)
{
    KZ_CALL();
    char asked[KZ_WHOLE_PATH], text[KZ_WHOLE_PATH], whole[KZ_WHOLE_PATH + 100];
    *RetFileNameInformation = NULL;
    KzFile *file = kz_may_use(__func__, Instance) ? kz_file_with(FileObject) : NULL;
    if (!file || !FileName || !kz_destination(file, RootDirectory, FileName, FileNameLength, asked, sizeof asked))
        return STATUS_INVALID_PARAMETER;
    if (FltGetFileNameFormat(NameOptions) != FLT_FILE_NAME_NORMALIZED)
        return name_of(file->volume, asked, NameOptions, RetFileNameInformation);
    normalize(file->volume, asked, text, sizeof text);
    snprintf(whole, sizeof whole, "/Device/%s/%s", file->volume->name, text);
    kz_normalize_destination(&(KzNameAsked){Instance, file, kz_me->place.op, kz_me->place.data, NameOptions}, whole, sizeof whole);
    return show_name(file->volume, whole, NameOptions, RetFileNameInformation);
}

/* No name is a short one, so that none is tunneled. */
NTSTATUS FltGetTunneledName(PFLT_CALLBACK_DATA CallbackData, PFLT_FILE_NAME_INFORMATION FileNameInformation,
                            PFLT_FILE_NAME_INFORMATION *RetTunneledFileNameInformation)
{
    KZ_CALL();
    (void)CallbackData, (void)FileNameInformation;
    *RetTunneledFileNameInformation = NULL;
    return STATUS_SUCCESS;
}

static Named **find(PFLT_FILE_NAME_INFORMATION shown, const char *call)
{
    for (Named **at = &kz.name->first; *at; at = &(*at)->next)
        if ((*at)->shown == shown)
            return at;
    kz_tell(KZM_NO_NAME, call, "no name information (released twice?)");
    return NULL;
}

VOID FltReferenceFileNameInformation(PFLT_FILE_NAME_INFORMATION FileNameInformation)
{
    KZ_CALL();
    Named **at = find(FileNameInformation, __func__);
    if (!at)
        return;
    kz_uses_little();
    kz_scheduler->uses(*at, KZU_WRITES);
    (*at)->references++;
}

VOID FltReleaseFileNameInformation(PFLT_FILE_NAME_INFORMATION FileNameInformation)
{
    KZ_CALL();
    Named **at = find(FileNameInformation, __func__);
    kz_uses_little();
    if (at)
        kz_scheduler->uses(*at, KZU_WRITES);
    if (!at || --(*at)->references > 0)
        return;
    Named *gone = *at;
    *at = gone->next;
    free_named(gone);
}

/* No name is kept: each is asked for anew. */
NTSTATUS FltPurgeFileNameInformationCache(PFLT_INSTANCE Instance, PFILE_OBJECT FileObject)
{
    KZ_INSIDE_ALONE();
    (void)Instance, (void)FileObject;
    return STATUS_SUCCESS;
}

/* ---- Parts of a name: the last component, its extension and its stream. */
static UNICODE_STRING part(PCUNICODE_STRING name, size_t start, size_t end)
{
    USHORT length = (USHORT)((end - start) * sizeof(WCHAR));
    return length ? (UNICODE_STRING){length, length, name->Buffer + start} : (UNICODE_STRING){0, 0, NULL};
}

static size_t last(PCUNICODE_STRING name, size_t start, size_t end, WCHAR letter)
{
    for (size_t at = end; at-- > start;)
        if (name->Buffer[at] == letter)
            return at;
    return end;
}

static size_t first(PCUNICODE_STRING name, size_t start, size_t end, WCHAR letter)
{
    while (start < end && name->Buffer[start] != letter)
        start++;
    return start;
}

/* Where the last component begins: behind the last backslash. */
static size_t final_start(PCUNICODE_STRING name)
{
    size_t end = name->Length / sizeof(WCHAR), slash = last(name, 0, end, '\\');
    return slash == end ? 0 : slash + 1;
}

NTSTATUS FltParseFileName(PCUNICODE_STRING FileName, PUNICODE_STRING Extension, PUNICODE_STRING Stream, PUNICODE_STRING FinalComponent)
{
    KZ_INSIDE_ALONE();
    kz_uses_text(FileName, KZU_READS);
    kz_gives(Extension);
    kz_gives(Stream);
    kz_gives(FinalComponent);
    size_t start = final_start(FileName), end = FileName->Length / sizeof(WCHAR), colon = first(FileName, start, end, ':');
    size_t dot = last(FileName, start, colon, '.');
    if (Extension)
        *Extension = dot == colon ? part(FileName, end, end) : part(FileName, dot + 1, colon);
    if (Stream)
        *Stream = part(FileName, colon, end);
    if (FinalComponent)
        *FinalComponent = part(FileName, start, end);
    return STATUS_SUCCESS;
}

NTSTATUS FltParseFileNameInformation(PFLT_FILE_NAME_INFORMATION FileNameInformation)
{
    KZ_INSIDE_ALONE();
    kz_uses_bytes(FileNameInformation, sizeof *FileNameInformation, KZU_WRITES);
    PFLT_FILE_NAME_INFORMATION info = FileNameInformation;
    kz_open_owned(info);
    FltParseFileName(&info->Name, &info->Extension, &info->Stream, &info->FinalComponent);
    size_t volume = info->Volume.Length / sizeof(WCHAR), start = final_start(&info->Name);
    info->ParentDir = start > volume ? part(&info->Name, volume, start) : part(&info->Name, volume, volume);
    info->NamesParsed = FLTFL_FILE_NAME_PARSED_FINAL_COMPONENT | FLTFL_FILE_NAME_PARSED_EXTENSION | FLTFL_FILE_NAME_PARSED_STREAM;
    if (info->Format == FLT_FILE_NAME_NORMALIZED || info->Format == FLT_FILE_NAME_OPENED)
        info->NamesParsed |= FLTFL_FILE_NAME_PARSED_PARENT_DIR;
    return STATUS_SUCCESS;
}

/* ---- Volumes. */
static NTSTATUS put_name(const char *text, PUNICODE_STRING to, PULONG needed)
{
    WCHAR room[128];
    USHORT size = (USHORT)kz_widen(room, text);
    UNICODE_STRING name = {size, size, room};
    if (needed)
        *needed = name.Length;
    if (!to || to->MaximumLength < name.Length)
        return STATUS_BUFFER_TOO_SMALL;
    RtlCopyUnicodeString(to, &name);
    return STATUS_SUCCESS;
}

NTSTATUS FltGetVolumeName(PFLT_VOLUME Volume, PUNICODE_STRING VolumeName, PULONG BufferSizeNeeded)
{
    KZ_INSIDE_ALONE();
    kz_uses_text(VolumeName, KZU_WRITES);
    kz_gives(BufferSizeNeeded);
    if (!kz_may_use_volume(__func__, Volume))
        return STATUS_FLT_DELETING_OBJECT;
    char text[64];
    device_name(text, sizeof text, Volume);
    return put_name(text, VolumeName, BufferSizeNeeded);
}

NTSTATUS FltGetVolumeGuidName(PFLT_VOLUME Volume, PUNICODE_STRING VolumeGuidName, PULONG BufferSizeNeeded)
{
    KZ_INSIDE_ALONE();
    kz_uses_text(VolumeGuidName, KZU_WRITES);
    kz_gives(BufferSizeNeeded);
    if (!kz_may_use_volume(__func__, Volume))
        return STATUS_FLT_DELETING_OBJECT;
    char guid[64], text[80];
    kz_volume_guid(Volume, guid, sizeof guid);
    snprintf(text, sizeof text, "/?" "?/%s", guid);
    return put_name(text, VolumeGuidName, BufferSizeNeeded);
}

/* As a drive's letter, from C: on. The driver frees it. */
NTSTATUS IoVolumeDeviceToDosName(PVOID VolumeDeviceObject, PUNICODE_STRING DosName)
{
    KZ_INSIDE_ALONE();
    kz_gives(DosName);
    for (size_t at = 0; at < kz.volumes_count; at++) {
        if (VolumeDeviceObject != &kz.volumes[at]->disk && VolumeDeviceObject != &kz.volumes[at]->device)
            continue;
        DosName->Buffer = ExAllocatePoolWithTag(PagedPool, 3 * sizeof(WCHAR), 'nsoD');
        if (!DosName->Buffer)
            return STATUS_INSUFFICIENT_RESOURCES;
        DosName->Length = 2 * sizeof(WCHAR);
        DosName->MaximumLength = 3 * sizeof(WCHAR);
        DosName->Buffer[0] = (WCHAR)('C' + kz.volumes[at]->id);
        DosName->Buffer[1] = ':';
        DosName->Buffer[2] = 0;
        return STATUS_SUCCESS;
    }
    return STATUS_INVALID_PARAMETER;
}

/* ---- The end. */
void kz_tell_names(PFLT_FILTER filter)
{
    for (Named *one = kz.name->first; one; one = one->next) {
        if (one->place.filter != filter)
            continue;
        KzPlace before = kz_enter_again(&one->place);
        kz_tell(KZM_NAME_LEAK, "FltReleaseFileNameInformation", "never called for a name");
        kz_me->place = before;
    }
}

static void free_names(void)
{
    while (kz.name->first) {
        Named *one = kz.name->first;
        kz.name->first = one->next;
        free_named(one);
    }
}

const KzModule kz_name_module = {KZ_STATE(name), .free = free_names};
