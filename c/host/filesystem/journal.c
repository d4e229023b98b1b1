/* The journal of a volume's changes, as NTFS keeps it: a record for each new kind of change of a file, with all kinds since it was opened, and one as its last handle is closed. A record's number is
 * its place among the bytes of all. */
#include "filesystem/journal.h"

#include "core/client.h"
#include "core/clock.h"
#include "core/memory.h"
#include "core/module.h"
#include "lib/letters.h"
#include "filesystem/name.h"
#include "filesystem/notice.h"

#include <stdlib.h>

enum { LARGEST_RECORD = 1024, USUAL_SIZE = 1 << 25 };

typedef struct Kept {
    struct Kept *next;
    USN_RECORD_V2 *record;
} Kept;

struct KzJournalState {
    USN size; /* that it is to have at most; 0: the usual one */
    struct {
        Kept *first, **end;
        USN next;
    } volumes[sizeof kz.volumes / sizeof kz.volumes[0]];
};

static const ULONG HERE[] = {USN_REASON_DATA_OVERWRITE, USN_REASON_DATA_EXTEND, USN_REASON_DATA_TRUNCATION};
static const ULONG NAMED[] = {USN_REASON_NAMED_DATA_OVERWRITE, USN_REASON_NAMED_DATA_EXTEND, USN_REASON_NAMED_DATA_TRUNCATION};

static uint64_t parent_of(const KzName *name)
{
    char above[KZ_PATH];
    const char *slash = strrchr(name->text, '/');
    snprintf(above, sizeof above, "%.*s", slash ? (int)(slash - name->text) : 0, name->text);
    KzName *folder = kz_take_name(name->volume, above);
    uint64_t id = folder && kz_is_there(folder) ? folder->file->id : 0;
    kz_let_go_name(folder);
    return id;
}

static size_t fill(const KzName *name, USN usn, ULONG reason, uint8_t *to)
{
    const KzName *file = name->base ? name->base : name;
    const char *slash = strrchr(file->text, '/');
    USN_RECORD_V2 head = {.MajorVersion = 2, .FileReferenceNumber = file->file->id, .ParentFileReferenceNumber = parent_of(file), .Usn = usn, .Reason = reason, .FileAttributes = file->file->attributes, .FileNameOffset = offsetof(USN_RECORD_V2, FileName)};
    head.TimeStamp.QuadPart = reason ? kz_time() : 0;
    memset(to, 0, LARGEST_RECORD);
    head.FileNameLength = (USHORT)kz_widen((WCHAR *)(to + head.FileNameOffset), slash ? slash + 1 : file->text);
    head.RecordLength = (ULONG)((head.FileNameOffset + head.FileNameLength + 7u) & ~7u);
    memcpy(to, &head, offsetof(USN_RECORD_V2, FileName));
    return head.RecordLength;
}

static USN size_of_all(void)
{
    return kz.journal->size ? kz.journal->size : USUAL_SIZE;
}

static USN delta(void)
{
    return size_of_all() / 8;
}

static USN first_of(uint8_t volume)
{
    const Kept *first = kz.journal->volumes[volume].first;
    return first ? first->record->Usn : kz.journal->volumes[volume].next;
}

static void drop_first(uint8_t volume)
{
    Kept *gone = kz.journal->volumes[volume].first;
    kz.journal->volumes[volume].first = gone->next;
    free(gone->record);
    free(gone);
}

/* As NTFS: once it has grown past its size by a delta, the oldest records go. */
static void trim(uint8_t volume)
{
    if (kz.journal->volumes[volume].next - first_of(volume) <= size_of_all() + delta())
        return;
    while (kz.journal->volumes[volume].next - first_of(volume) > size_of_all())
        drop_first(volume);
}

void kz_bound_journal(uint64_t size)
{
    kz.journal->size = (USN)size;
}

static void put(const KzName *name, ULONG reason)
{
    uint8_t room[LARGEST_RECORD];
    uint8_t at = name->volume->id;
    KzRecord *record = name->file;
    record->usn = kz.journal->volumes[at].next;
    size_t length = fill(name, record->usn, reason, room);
    if (kz.is_journal_ordered)
        kz_scheduler->uses(&kz.journal->volumes[at], KZU_WRITES);
    Kept *made = kz_memory(sizeof *made);
    made->record = kz_memory(length);
    memcpy(made->record, room, length);
    if (!kz.journal->volumes[at].end)
        kz.journal->volumes[at].end = &kz.journal->volumes[at].first;
    *kz.journal->volumes[at].end = made;
    kz.journal->volumes[at].end = &made->next;
    kz.journal->volumes[at].next += (USN)length;
    trim(at);
}

static ULONG of_stream(ULONG reason)
{
    for (size_t at = 0; at < sizeof HERE / sizeof HERE[0]; at++)
        if (reason & HERE[at])
            reason = (reason & ~HERE[at]) | NAMED[at];
    return reason;
}

void kz_journal(const KzName *name, ULONG reason)
{
    KzRecord *record = name->file;
    ULONG before = record->reasons;
    if (name->volume->type != FLT_FSTYPE_NTFS || !record->exists)
        return;
    if (reason == USN_REASON_RENAME_NEW_NAME)
        record->reasons &= ~(ULONG)USN_REASON_RENAME_OLD_NAME;
    record->reasons |= name->base ? of_stream(reason) : reason;
    if (record->reasons == before)
        return;
    if (reason == USN_REASON_FILE_DELETE)
        kz_journal_close(name);
    else
        put(name, record->reasons);
}

void kz_journal_write(const KzName *name, uint64_t offset, size_t length, uint64_t size)
{
    bool is_over = length && offset < size, is_longer = length && offset + length > size;
    kz_journal(name, (is_over ? USN_REASON_DATA_OVERWRITE : 0) | (is_longer ? USN_REASON_DATA_EXTEND : 0));
}

/* By what is notified: of a name, unless others lead to the file, or of what else it has. */
static void note(const KzName *name, ULONG filter, ULONG action)
{
    ULONG names = action == FILE_ACTION_ADDED ? USN_REASON_FILE_CREATE : USN_REASON_FILE_DELETE;
    static const ULONG changes[][2] = {{FILE_NOTIFY_CHANGE_ATTRIBUTES, USN_REASON_BASIC_INFO_CHANGE}, {FILE_NOTIFY_CHANGE_EA, USN_REASON_EA_CHANGE}, {FILE_NOTIFY_CHANGE_SECURITY, USN_REASON_SECURITY_CHANGE}};
    if (filter & (FILE_NOTIFY_CHANGE_FILE_NAME | FILE_NOTIFY_CHANGE_DIR_NAME))
        kz_journal(name, name->base ? USN_REASON_STREAM_CHANGE : name->file->links > 1 ? USN_REASON_HARD_LINK_CHANGE : names);
    for (size_t at = 0; at < sizeof changes / sizeof changes[0]; at++)
        if (filter & changes[at][0])
            kz_journal(name, changes[at][1]);
}

void kz_changed(const KzName *name, ULONG filter, ULONG action)
{
    note(name, filter, action);
    kz_notify(name, filter, action);
}

void kz_journal_close(const KzName *name)
{
    if (name->file->reasons)
        put(name, name->file->reasons | USN_REASON_CLOSE);
    name->file->reasons = 0;
}

void kz_write_close_record(const KzName *name)
{
    kz_uses_all();
    put(name, name->file->reasons | USN_REASON_CLOSE);
    name->file->reasons = 0;
}

/* Whoever reads of it is taken to use everything. */
static void note_read(void)
{
    kz_uses_all();
    kz.is_journal_read = true;
}

size_t kz_journal_record(const KzName *name, uint8_t *to)
{
    note_read();
    return fill(name, name->file->usn, 0, to);
}

void kz_query_journal(PFLT_VOLUME volume, USN_JOURNAL_DATA_V0 *to)
{
    note_read();
    *to = (USN_JOURNAL_DATA_V0){.UsnJournalID = volume->id + 1u,
                                .FirstUsn = first_of(volume->id),
                                .NextUsn = kz.journal->volumes[volume->id].next,
                                .LowestValidUsn = first_of(volume->id),
                                .MaxUsn = MAXLONGLONG,
                                .MaximumSize = (DWORDLONG)size_of_all(),
                                .AllocationDelta = (DWORDLONG)delta()};
}

/* From that place on, as many as there is room for, behind the number of the next one. None waits for records. */
NTSTATUS kz_read_journal(PFLT_VOLUME volume, const READ_USN_JOURNAL_DATA_V0 *asked, uint8_t *to, size_t room, size_t *length)
{
    USN next = kz.journal->volumes[volume->id].next;
    note_read();
    *length = sizeof next;
    if (room < sizeof next)
        return STATUS_BUFFER_TOO_SMALL;
    if (asked->UsnJournalID != volume->id + 1u || asked->StartUsn < 0 || asked->StartUsn > next)
        return STATUS_INVALID_PARAMETER;
    if (asked->StartUsn && asked->StartUsn < first_of(volume->id))
        return STATUS_JOURNAL_ENTRY_DELETED;
    for (const Kept *one = kz.journal->volumes[volume->id].first; one; one = one->next) {
        const USN_RECORD_V2 *record = one->record;
        bool is_asked = record->Reason & asked->ReasonMask && (!asked->ReturnOnlyOnClose || record->Reason & USN_REASON_CLOSE);
        if (record->Usn < asked->StartUsn || !is_asked)
            continue;
        if (*length + record->RecordLength > room) {
            next = record->Usn;
            break;
        }
        memcpy(to + *length, record, record->RecordLength);
        *length += record->RecordLength;
    }
    memcpy(to, &next, sizeof next);
    return STATUS_SUCCESS;
}

/* The first file of the volume, from that number on, whose last change lies between the two. */
static const KzName *next_file(PFLT_VOLUME volume, const MFT_ENUM_DATA_V0 *asked, uint64_t from)
{
    const KzName *found = NULL;
    for (const KzName *one = kz_all_names(); one; one = one->next) {
        const KzRecord *file = one->file;
        bool is_listed = one->volume == volume && !one->base && !one->is_gone && *one->text && file->exists && file->usn >= asked->LowUsn && file->usn <= asked->HighUsn;
        if (is_listed && file->id >= from && (!found || file->id < found->file->id))
            found = one;
    }
    return found;
}

/* The files by their numbers, from one on, as many as there is room for, behind the number with which to go on. */
NTSTATUS kz_list_records(PFLT_VOLUME volume, const MFT_ENUM_DATA_V0 *asked, uint8_t *to, size_t room, size_t *length)
{
    uint8_t record[LARGEST_RECORD];
    uint64_t next = asked->StartFileReferenceNumber;
    *length = sizeof next;
    note_read();
    if (room < sizeof next)
        return STATUS_BUFFER_TOO_SMALL;
    const KzName *one = next_file(volume, asked, next);
    if (!one)
        return STATUS_END_OF_FILE;
    for (; one; one = next_file(volume, asked, next)) {
        size_t size = kz_journal_record(one, record);
        next = one->file->id;
        if (*length + size > room)
            break;
        memcpy(to + *length, record, size);
        *length += size;
        next++;
    }
    memcpy(to, &next, sizeof next);
    return STATUS_SUCCESS;
}

static void free_journal(void)
{
    for (size_t at = 0; at < sizeof kz.journal->volumes / sizeof kz.journal->volumes[0]; at++)
        while (kz.journal->volumes[at].first)
            drop_first((uint8_t)at);
}

const KzModule kz_journal_module = {KZ_STATE(journal), .free = free_journal};
