/* Files, whatever they are called. */
#include "filesystem/record.h"

#include "core/clock.h"
#include "core/memory.h"
#include "core/module.h"
#include "filesystem/stream.h"

#include <stdlib.h>

enum { RECORDS = 1024 };

struct KzRecordState {
    KzRecord *first;
    uint16_t sequences[RECORDS]; /* how many files there were of each record, as far as their IDs say */
};

uint64_t kz_allocated(PFLT_VOLUME volume, uint64_t size)
{
    return (size + volume->sector - 1) / volume->sector * volume->sector;
}

void kz_keep_bytes(KzBytes *kept, const void *bytes, size_t length)
{
    free(kept->bytes);
    *kept = (KzBytes){length ? kz_memory(length) : NULL, length};
    if (length)
        memcpy(kept->bytes, bytes, length);
}

void kz_forget_tag(KzRecord *record)
{
    kz_keep_bytes(&record->beside.reparse, NULL, 0);
    record->attributes &= ~(ULONG)FILE_ATTRIBUTE_REPARSE_POINT;
    record->attributes |= record->attributes ? 0 : FILE_ATTRIBUTE_NORMAL;
}

KzRecord *kz_first_record(void)
{
    return kz.record->first;
}

static uint64_t hash_of(PFLT_VOLUME volume, const char *text)
{
    uint64_t number = 0xcbf29ce484222325ULL + volume->id;
    for (; *text; text++)
        number = (number ^ (uint8_t)*text) * 0x100000001b3ULL;
    return number;
}

KzRecord *kz_new_record(PFLT_VOLUME volume, const char *text)
{
    KzRecord *made = kz_memory(sizeof *made);
    made->volume = volume;
    made->born = hash_of(volume, *text ? text : "$root");
    made->links = 1;
    made->attributes = FILE_ATTRIBUTE_NORMAL;
    made->next = kz.record->first;
    if (kz.record->first)
        kz.record->first->before = made;
    kz.record->first = made;
    kz_add_stream(made, "", 0);
    return made;
}

void kz_copy_beside(KzBeside *to, const KzBeside *from)
{
    kz_keep_bytes(&to->ea, from ? from->ea.bytes : NULL, from ? from->ea.length : 0);
    kz_keep_bytes(&to->security, from ? from->security.bytes : NULL, from ? from->security.length : 0);
    kz_keep_bytes(&to->reparse, from ? from->reparse.bytes : NULL, from ? from->reparse.length : 0);
}

static void forget_what_is_kept(KzRecord *record)
{
    kz_copy_beside(&record->beside, NULL);
    kz_keep_bytes(&record->object_id, NULL, 0);
}

void kz_free_record(KzRecord *record)
{
    while (record->streams)
        kz_free_stream(record->streams);
    forget_what_is_kept(record);
    if (record->before)
        record->before->next = record->next;
    else
        kz.record->first = record->next;
    if (record->next)
        record->next->before = record->before;
    free(record);
}

/* As the kit's file systems have it: a record of the file, and how often that was used before. */
static uint64_t new_id(const KzRecord *record)
{
    uint64_t used = kz.record->sequences[record->born % RECORDS]++;
    return (record->born ^ used << 48) & INT64_MAX;
}

void kz_begin_record(KzRecord *record, bool is_directory)
{
    record->exists = true;
    record->is_directory = is_directory;
    record->marked = NULL;
    record->id = new_id(record);
    record->created = record->accessed = record->written = record->changed = kz_time();
    record->attributes = is_directory ? FILE_ATTRIBUTE_DIRECTORY : FILE_ATTRIBUTE_ARCHIVE;
    forget_what_is_kept(record);
    kz_begin_stream(record->streams);
}

void kz_end_record(KzRecord *record)
{
    record->exists = false;
    for (KzStream *one = record->streams, *next; one; one = next) {
        next = one->next;
        kz_end_stream(one);
    }
}

static void free_records(void)
{
    while (kz.record->first)
        kz_free_record(kz.record->first);
}

const KzModule kz_record_module = {KZ_STATE(record), .free = free_records};
