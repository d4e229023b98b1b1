/* What a transaction changes. The streams themselves have its changes, and what was committed last is kept beside them, whole, for all others: bytes, sizes, times and attributes. A file that it
 * makes is hidden from others, one that it deletes from itself, until it ends. Others see a new name of a file at once. */
#include "filesystem/version.h"

#include "core/client.h"
#include "core/memory.h"
#include "core/module.h"
#include "core/told.h"
#include "filesystem/bytes.h"
#include "filesystem/deletion.h"
#include "filesystem/disk.h"
#include "filesystem/name.h"
#include "filesystem/record.h"
#include "filesystem/rename.h"
#include "filesystem/sharing.h"
#include "filesystem/stream.h"

#include <stdlib.h>

/* A stream, as it was committed last. */
typedef struct Old {
    struct Old *next;
    KzName *name; /* that keeps the stream */
    KzStream *stream;
    KzStream kept; /* sizes, bytes and cache */
} Old;

typedef struct KzVersion {
    struct KzVersion *next;
    PKTRANSACTION by;
    KzName *name;
    char *path; /* that it had */
    bool was_there, is_deleted;
    KzFacts facts; /* of the file; sizes are the streams' */
    KzBeside beside;
    Old *streams;
} KzVersion;

struct KzVersionState {
    PKTRANSACTION first;
    Old *seen; /* what is over, and whose cache somebody still needs */
    unsigned last; /* number */
};

/* ---- Transactions. */
PKTRANSACTION kz_transaction_named(const char *name)
{
    PKTRANSACTION one = *name ? kz.version->first : NULL;
    while (one && !(one->step == KZ_IS_ACTIVE && strcmp(one->name, name) == 0))
        one = one->next;
    return one;
}

bool kz_is_transaction(const struct _KTRANSACTION *one)
{
    const struct _KTRANSACTION *at = kz.version->first;
    while (at && at != one)
        at = at->next;
    return at;
}

KzMember **kz_member_of(PKTRANSACTION transaction, PFLT_INSTANCE instance)
{
    KzMember **at = &transaction->members;
    while (*at && (*at)->instance != instance)
        at = &(*at)->next;
    return at;
}

PKTRANSACTION kz_transaction_of(PFLT_INSTANCE instance)
{
    PKTRANSACTION one = kz.version->first;
    while (one && !*kz_member_of(one, instance))
        one = one->next;
    return one;
}

PKTRANSACTION kz_begin_transaction(const char *name)
{
    enum { DEFAULT_VIEW = 0xfffe }; /* TXFS_MINIVERSION_DEFAULT_VIEW */
    if (strlen(name) >= sizeof kz.version->first->name || kz_transaction_named(name))
        return NULL;
    PKTRANSACTION made = kz_memory(sizeof *made);
    kz_uses_all();
    made->number = ++kz.version->last;
    strcpy(made->name, name);
    made->block = (TXN_PARAMETER_BLOCK){sizeof made->block, DEFAULT_VIEW, made};
    made->next = kz.version->first;
    return kz.version->first = made;
}

/* ---- Who sees what. */
static const Old *old_of(const KzVersion *version, const KzStream *stream)
{
    const Old *one = version->streams;
    while (one && one->stream != stream)
        one = one->next;
    return one;
}

/* The one that somebody sees in the file's place; NULL: he sees the file itself. */
static const KzVersion *seen(const KzRecord *record, const struct _KTRANSACTION *from)
{
    const KzVersion *version = record->version;
    return version && version->by != from && version->was_there ? version : NULL;
}

KzFacts kz_facts_of(const KzStream *stream, const struct _KTRANSACTION *from)
{
    const KzRecord *record = stream->file;
    const KzVersion *version = seen(record, from);
    const Old *old = version ? old_of(version, stream) : NULL;
    if (!version)
        return (KzFacts){record->created, record->accessed, record->written, record->changed, record->attributes, stream->size, stream->allocation, &stream->pages};
    KzFacts facts = version->facts;
    if (old)
        facts.size = old->kept.size, facts.allocation = old->kept.allocation, facts.pages = &old->kept.pages;
    return facts;
}

const KzBeside *kz_beside_of(const KzRecord *record, const struct _KTRANSACTION *from)
{
    const KzVersion *version = seen(record, from);
    return version ? &version->beside : &record->beside;
}

KzStream *kz_seen_stream(const KzFile *file)
{
    KzStream *stream = file->name->stream;
    const KzVersion *version = seen(stream->file, file->transaction);
    const Old *old = version ? old_of(version, stream) : NULL;
    return old ? (KzStream *)&old->kept : stream;
}

bool kz_is_hidden(const KzName *name, const struct _KTRANSACTION *from)
{
    const KzVersion *version = name->file->version;
    if (!version)
        return false;
    if (version->by == from)
        return version->is_deleted;
    return !version->was_there || (name->base && !old_of(version, name->stream));
}

bool kz_is_marked_for(const KzName *name, const struct _KTRANSACTION *from)
{
    return (name->file->marked || name->stream->is_marked) && !seen(name->file, from);
}

/* ---- What stands against a create. */
static bool changes(const KzCreate *create)
{
    const ACCESS_MASK all = FILE_WRITE_DATA | FILE_APPEND_DATA | FILE_WRITE_ATTRIBUTES | FILE_WRITE_EA | DELETE | WRITE_DAC | WRITE_OWNER;
    return create->access & all || create->options & FILE_DELETE_ON_CLOSE || kz_is_emptied(create);
}

static bool has_transactions(PFLT_VOLUME volume)
{
    bool has = volume->type == FLT_FSTYPE_NTFS && !kz_is_in_folder(volume->id);
    if (!has)
        kz_tell(KZM_TRANSACTION, "a create in a transaction", "on a volume that isn't NTFS in memory: it answers STATUS_NOT_SUPPORTED");
    return has;
}

/* The one that changes it is in the way of who changes it too. */
static NTSTATUS check_beside(const KzVersion *version, const KzFile *file, bool is_made, bool is_changed)
{
    if (version->by == file->transaction && version->is_deleted && is_made)
        kz_tell(KZM_TRANSACTION, "a create in a transaction", "of a name that the transaction has deleted: it answers STATUS_TRANSACTIONAL_CONFLICT");
    if (version->by == file->transaction)
        return version->is_deleted && is_made ? STATUS_TRANSACTIONAL_CONFLICT : STATUS_SUCCESS;
    if (!is_made && !is_changed)
        return STATUS_SUCCESS;
    return is_made || file->transaction ? STATUS_TRANSACTIONAL_CONFLICT : STATUS_SHARING_VIOLATION;
}

NTSTATUS kz_check_version(const KzFile *file, const KzCreate *create, bool is_made)
{
    const KzVersion *version = file->name->file->version;
    bool is_changed = changes(create) && !kz_is_hidden(file->name, file->transaction);
    if (file->transaction && !has_transactions(file->volume))
        return STATUS_NOT_SUPPORTED;
    if (version)
        return check_beside(version, file, is_made, is_changed);
    bool has_writers = file->transaction && is_changed && file->name->stream->share.Writers;
    return has_writers ? STATUS_SHARING_VIOLATION : STATUS_SUCCESS;
}

/* ---- What is kept. */
static KzName *name_of(const KzName *file, const KzStream *stream)
{
    char text[KZ_WHOLE_PATH];
    snprintf(text, sizeof text, "%s%s%s", file->text, *stream->name ? ":" : "", stream->name);
    return kz_take_name(file->volume, text);
}

/* All streams that are there, but for one that the create has just made. */
static void keep_streams(KzVersion *version, KzName *file, const KzStream *made, KzFile *by)
{
    for (KzStream *one = file->file->streams; one; one = one->next) {
        if (!one->exists || one == made)
            continue;
        Old *old = kz_memory(sizeof *old);
        kz_stream_is_kept(one, by);
        *old = (Old){.next = version->streams, .name = name_of(file, one), .stream = one, .kept = {.file = one->file, .name = one->name, .exists = true, .size = one->size, .allocation = one->allocation, .valid = one->valid}};
        kz_copy_pages(&old->kept.pages, &one->pages);
        version->streams = old;
    }
}

/* The sections of a stream are others for those who see what was committed last. */
static void show_sections(const KzVersion *version)
{
    for (KzFile *one = kz.files; one; one = one->next)
        if (one->name && one->name->file == version->name->file && one->object.SectionObjectPointer != &one->sections)
            one->object.SectionObjectPointer = &kz_seen_stream(one)->sections;
}

void kz_begin_version(KzFile *file, const KzCreate *create, bool was_there, bool had_file)
{
    KzName *name = file->name;
    PKTRANSACTION by = file->transaction;
    if (!by || !name || !*name->text || (was_there && !changes(create)))
        return;
    KzName *own = name->base ? name->base : name;
    KzRecord *record = own->file;
    if (record->version)
        return;
    KzVersion *made = kz_memory(sizeof *made);
    *made = (KzVersion){.next = by->versions, .by = by, .name = own, .was_there = had_file, .facts = kz_facts_of(record->streams, NULL)};
    made->facts.size = made->facts.allocation = 0;
    made->facts.pages = NULL;
    made->path = kz_copy_of(own->text);
    kz_copy_beside(&made->beside, &record->beside);
    kz_keep_name(own);
    if (had_file)
        keep_streams(made, own, was_there ? NULL : name->stream, file);
    by->versions = record->version = made;
    show_sections(made);
}

/* ---- Deletions. */
static bool is_open_in(const KzVersion *version)
{
    for (const KzFile *one = kz.files; one; one = one->next)
        if (one->transaction == version->by && one->is_counted && one->name && one->name->file == version->name->file)
            return true;
    return false;
}

bool kz_puts_off_deletion(const KzFile *file)
{
    KzRecord *record = file->name->file;
    KzVersion *version = record->version;
    if (!version || version->by != file->transaction)
        return false;
    if (!is_open_in(version) && record->marked) {
        record->marked = NULL;
        version->is_deleted = true;
    }
    return true;
}

/* ---- The end. */
static void put_back_stream(Old *old)
{
    KzStream *stream = old->stream;
    if (!stream->exists) {
        kz_tell(KZM_TRANSACTION, "a rollback", "a stream that the transaction deleted isn't put back");
        return;
    }
    kz_stream_is_replaced(stream);
    kz_cut_bytes(&stream->pages, 0);
    stream->pages = old->kept.pages;
    old->kept.pages = (KzPages){0};
    stream->size = old->kept.size;
    stream->allocation = old->kept.allocation;
    stream->valid = old->kept.valid;
}

/* The first stream that the transaction has made; NULL: none is left. */
static KzStream *made_stream(const KzVersion *version)
{
    KzStream *one = version->name->file->streams;
    while (one && (!one->exists || old_of(version, one)))
        one = one->next;
    return one;
}

static void put_back(KzVersion *version)
{
    KzName *name = version->name;
    KzRecord *record = name->file;
    record->marked = NULL;
    if (!version->was_there) {
        if (!name->is_gone && record->exists)
            kz_delete_name(name);
        return;
    }
    for (KzStream *made = made_stream(version); made; made = made_stream(version)) {
        KzName *gone = name_of(name, made);
        kz_delete_name(gone);
        kz_let_go_name(gone);
    }
    for (Old *old = version->streams; old; old = old->next)
        put_back_stream(old);
    kz_copy_beside(&record->beside, &version->beside);
    record->created = version->facts.created;
    record->accessed = version->facts.accessed;
    record->written = version->facts.written;
    record->changed = version->facts.changed;
    record->attributes = version->facts.attributes;
    if (!name->is_gone && strcmp(name->text, version->path) != 0 && !kz_find_name(name->volume, version->path))
        kz_move_to(name, version->path);
}

static void free_stream(Old *gone, bool lets_go)
{
    kz_cut_bytes(&gone->kept.pages, 0);
    if (lets_go)
        kz_let_go_name(gone->name);
    free(gone);
}

static void free_streams(KzVersion *version)
{
    while (version->streams) {
        Old *gone = version->streams;
        version->streams = gone->next;
        free_stream(gone, false);
    }
}

/* What somebody still needs of its cache stays as it was. */
static void end_streams(KzVersion *version)
{
    while (version->streams) {
        Old *gone = version->streams;
        version->streams = gone->next;
        kz_stream_is_replaced(&gone->kept);
        if (!gone->kept.cache) {
            free_stream(gone, true);
            continue;
        }
        gone->next = kz.version->seen;
        kz.version->seen = gone;
    }
}

static void free_version(KzVersion *gone)
{
    kz_copy_beside(&gone->beside, NULL);
    free(gone->path);
    free(gone);
}

void kz_end_versions(PKTRANSACTION transaction, bool is_committed)
{
    while (transaction->versions) {
        KzVersion *one = transaction->versions;
        transaction->versions = one->next;
        one->name->file->version = NULL;
        show_sections(one);
        if (!is_committed)
            put_back(one);
        else if (one->is_deleted && !one->name->is_gone)
            kz_delete_name(one->name);
        end_streams(one);
        kz_let_go_name(one->name);
        free_version(one);
    }
}

static void free_transactions(void)
{
    while (kz.version->seen) {
        Old *gone = kz.version->seen;
        kz.version->seen = gone->next;
        free_stream(gone, false);
    }
    while (kz.version->first) {
        PKTRANSACTION gone = kz.version->first;
        kz.version->first = gone->next;
        for (KzVersion *one = gone->versions, *next; one; one = next) {
            next = one->next;
            free_streams(one);
            free_version(one);
        }
        for (KzMember *one = gone->members, *next; one; one = next) {
            next = one->next;
            free(one);
        }
        free(gone);
    }
}

const KzModule kz_version_module = {KZ_STATE(version), .free = free_transactions};
