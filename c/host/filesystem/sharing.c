/* What a create makes of a file. */
#include "filesystem/sharing.h"

#include "core/module.h"
#include "core/op.h"
#include "filesystem/call.h"
#include "filesystem/control.h"
#include "filesystem/deletion.h"
#include "filesystem/name.h"
#include "filesystem/record.h"
#include "filesystem/rename.h"
#include "filesystem/spelling.h"
#include "filesystem/stream.h"
#include "lib/share.h"

/* Those of a file that a create may give it. */
#define GIVEN (FILE_ATTRIBUTE_READONLY | FILE_ATTRIBUTE_HIDDEN | FILE_ATTRIBUTE_SYSTEM | FILE_ATTRIBUTE_ARCHIVE | FILE_ATTRIBUTE_TEMPORARY | FILE_ATTRIBUTE_OFFLINE | FILE_ATTRIBUTE_NOT_CONTENT_INDEXED)

/* Those who opened the volume itself share it among themselves. */
static PSHARE_ACCESS share_of(KzFile *file)
{
    return file->is_volume ? &file->volume->share : &file->name->stream->share;
}

static ULONG disposition_of(const KzCreate *create)
{
    return create->options >> 24;
}

bool kz_is_emptied(const KzCreate *create)
{
    ULONG disposition = disposition_of(create);
    return disposition == FILE_SUPERSEDE || disposition == FILE_OVERWRITE || disposition == FILE_OVERWRITE_IF;
}

/* Streams share each by itself. But who opens the file to delete it, and not its bytes by their type, deletes them all. */
static bool may_delete(const KzFile *file)
{
    bool is_of_all = file->object.DeleteAccess && !file->spelt.is_data;
    const KzStream *one = is_of_all ? file->name->file->streams->next : NULL;
    while (one && one->share.SharedDelete == one->share.OpenCount)
        one = one->next;
    return !one;
}

bool kz_may_share_file(KzFile *file, const KzCreate *create)
{
    kz_grant(&file->object, create->access, create->share);
    return create->ignores_sharing || (kz_may_share(&file->object, share_of(file)) && may_delete(file));
}

/* ---- It was opened. */
static ULONG flags_of(const KzCreate *create)
{
    static const struct {
        ULONG option, flag;
    } all[] = {{FILE_SYNCHRONOUS_IO_ALERT, FO_SYNCHRONOUS_IO | FO_ALERTABLE_IO},
               {FILE_SYNCHRONOUS_IO_NONALERT, FO_SYNCHRONOUS_IO},
               {FILE_NO_INTERMEDIATE_BUFFERING, FO_NO_INTERMEDIATE_BUFFERING},
               {FILE_WRITE_THROUGH, FO_WRITE_THROUGH},
               {FILE_SEQUENTIAL_ONLY, FO_SEQUENTIAL_ONLY},
               {FILE_RANDOM_ACCESS, FO_RANDOM_ACCESS},
               {FILE_DELETE_ON_CLOSE, FO_DELETE_ON_CLOSE}};
    ULONG flags = create->attributes & FILE_ATTRIBUTE_TEMPORARY ? FO_TEMPORARY_FILE : 0;
    for (size_t at = 0; at < sizeof all / sizeof all[0]; at++)
        if (create->options & all[at].option)
            flags |= all[at].flag;
    return flags;
}

static void share(KzFile *file, const KzCreate *create)
{
    kz_grant(&file->object, create->access, create->share);
    if (create->ignores_sharing || !file->name)
        return;
    kz_count_share(&file->object, share_of(file), 1);
    file->is_sharing = true;
}

void kz_stop_sharing(KzFile *file)
{
    if (!file->is_sharing)
        return;
    file->is_sharing = false;
    kz_count_share(&file->object, share_of(file), -1);
}

/* A file is to be archived once it is made, emptied or replaced; of one that is emptied the other attributes stay. */
static void give_attributes(KzRecord *record, const KzCreate *create, bool was_there)
{
    ULONG given = create->attributes & GIVEN, kept = was_there && disposition_of(create) != FILE_SUPERSEDE ? record->attributes & ~(ULONG)FILE_ATTRIBUTE_NORMAL : 0;
    record->attributes = given | kept | (record->is_directory ? FILE_ATTRIBUTE_DIRECTORY : FILE_ATTRIBUTE_ARCHIVE);
}

static void give_allocation(KzName *name, const KzCreate *create)
{
    if (create->allocation > 0 && !kz_is_directory(name))
        name->stream->allocation = kz_allocated(name->volume, (uint64_t)create->allocation);
}

/* A folder that a rename opens: what the name of its file object leads to. */
static ULONG_PTR result_of_target(const KzFile *folder)
{
    char text[KZ_WHOLE_PATH];
    const KzName *target = kz_name_in_target(folder, text, sizeof text) ? kz_find_name(folder->volume, text) : NULL;
    return target && kz_exists(target) ? FILE_EXISTS : FILE_DOES_NOT_EXIST;
}

static ULONG_PTR result_of(const KzFile *file, const KzCreate *create, bool was_there)
{
    if (create->is_target)
        return result_of_target(file);
    if (!was_there)
        return FILE_CREATED;
    if (!kz_is_emptied(create))
        return FILE_OPENED;
    return disposition_of(create) == FILE_SUPERSEDE ? FILE_SUPERSEDED : FILE_OVERWRITTEN;
}

void kz_note_opened(KzOp *op, bool was_there, bool had_file)
{
    KzFile *file = op->file;
    const KzCreate *create = &op->create;
    file->object.Flags = (file->object.Flags & ~(ULONG)FO_SYNCHRONOUS_IO) | flags_of(create);
    file->access = create->access;
    file->asks_next = create->options & (FILE_OPEN_REQUIRING_OPLOCK | FILE_RESERVE_OPFILTER);
    file->created = result_of(file, create, was_there);
    share(file, create);
    if (file->created == FILE_OPENED || create->is_target)
        return;
    KzName *name = file->name;
    if (!name)
        return;
    bool is_cut = was_there && !kz_is_directory(name);
    if (is_cut)
        kz_resize(file, 0);
    give_allocation(name, create);
    if (name->base && had_file)
        return; /* what else there is is the file's, and stays */
    if (is_cut) {
        kz_keep_bytes(&name->file->beside.ea, NULL, 0);
        kz_forget_tag(name->file);
    }
    give_attributes(name->file, create, was_there);
    if (create->ea_length)
        kz_keep_bytes(&name->file->beside.ea, create->ea, create->ea_length);
}
