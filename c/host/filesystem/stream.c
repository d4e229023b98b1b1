/* Streams of files, and their bytes, whatever keeps these. */
#include "filesystem/journal.h"
#include "filesystem/stream.h"

#include "core/client.h"
#include "core/clock.h"
#include "core/memory.h"
#include "core/module.h"
#include "core/status.h"
#include "filesystem/bytes.h"
#include "filesystem/disk.h"
#include "filesystem/name.h"
#include "filesystem/notice.h"
#include "filesystem/ranges.h"
#include "oplock/oplock.h"

#include <stdlib.h>

struct KzStreamState {
    uint64_t made; /* so many there were */
};

static KzStream *new_stream(KzRecord *record, const char *name, size_t length)
{
    KzStream *made = kz_memory(sizeof *made);
    made->file = record;
    made->name = kz_memory(length + 1);
    memcpy(made->name, name, length);
    snprintf(made->key, sizeof made->key, "s%llu", (unsigned long long)++kz.stream->made);
    return made;
}

/* The unnamed one stays the first, since its name is empty. */
static void put_in(KzStream *stream)
{
    KzStream **at = &stream->file->streams;
    while (*at && strcmp((*at)->name, stream->name) < 0)
        at = &(*at)->next;
    stream->next = *at;
    *at = stream;
}

static void take_out(KzStream *stream)
{
    KzStream **at = &stream->file->streams;
    while (*at != stream)
        at = &(*at)->next;
    *at = stream->next;
}

KzStream *kz_stream_of(const KzRecord *record, const char *name)
{
    KzStream *one = record->streams;
    while (one && (one->is_gone || !kz_is_same_name(record->volume, one->name, name, SIZE_MAX)))
        one = one->next;
    return one;
}

KzStream *kz_add_stream(KzRecord *record, const char *name, size_t length)
{
    KzStream *made = new_stream(record, name, length);
    put_in(made);
    return made;
}

void kz_free_stream(KzStream *stream)
{
    kz_forget_orphan(stream);
    take_out(stream);
    kz_cut_bytes(&stream->pages, 0);
    kz_free_oplock(&stream->oplock);
    for (KzHeldRange *gone; (gone = stream->locks);) {
        stream->locks = gone->next;
        free(gone);
    }
    free(stream->name);
    free(stream);
}

void kz_begin_stream(KzStream *stream)
{
    stream->exists = true;
    stream->is_marked = false;
    stream->size = stream->allocation = stream->valid = 0;
}

void kz_end_stream(KzStream *stream)
{
    stream->exists = stream->is_marked = false;
    kz_forget_orphan(stream);
    kz_stream_is_cut(stream, 0);
    kz_cut_bytes(&stream->pages, 0);
    stream->is_gone = *stream->name;
    if (stream->is_gone && !stream->names)
        kz_free_stream(stream);
}

void kz_name_stream(KzStream *stream, const char *name)
{
    take_out(stream);
    free(stream->name);
    stream->name = kz_copy_of(name);
    put_in(stream);
}

/* ---- Bytes. */
static KzFolderAnswer read_memory(const KzFacts *facts, const KazdrinData *call, uint8_t *room)
{
    uint64_t rest = call->offset < facts->size ? facts->size - call->offset : 0;
    size_t length = call->len < rest ? call->len : (size_t)rest;
    if (call->len && !rest)
        return (KzFolderAnswer){.status = KZS_END_OF_FILE};
    kz_get_bytes(facts->pages, call->offset, room, length);
    return (KzFolderAnswer){.status = KZS_OK, .information = length, .bytes = room, .length = length};
}

static uint8_t found(bool exists, uint8_t mode)
{
    if (exists)
        return mode == 1 ? KZS_ALREADY_EXISTS : KZS_OK;
    return mode == 0 ? KZS_FILE_NOT_FOUND : KZS_OK;
}

static KzFolderAnswer call_memory(const KzFile *file, const KazdrinData *call, const uint8_t *bytes, uint8_t *room)
{
    const KzName *name = file->name;
    KzStream *stream = name->stream;
    const KzFacts facts = kz_facts_of(stream, file->transaction);
    switch (call->operation) {
    case KZE_CREATE:
        return (KzFolderAnswer){.status = found(kz_exists(name), call->mode)};
    case KZE_READ:
        return read_memory(&facts, call, room);
    case KZE_WRITE:
        kz_put_bytes(&stream->pages, call->offset, bytes, call->length);
        break;
    case KZE_QUERY_SIZE:
        return (KzFolderAnswer){.status = KZS_OK, .information = facts.size};
    case KZE_SET_SIZE:
        kz_cut_bytes(&stream->pages, call->offset);
        break;
    default:
        break;
    }
    return (KzFolderAnswer){.status = KZS_OK};
}

void kz_uses_stream(const KzName *name, KzUse how)
{
    kz_scheduler->uses(&name->stream->size, how);
    kz_scheduler->uses(name->file, how);
}

KzFolderAnswer kz_call_stream(KzFile *file, const KazdrinData *call, const uint8_t *bytes, uint8_t *room)
{
    const KzName *name = file->name;
    if (kz_is_in_folder(file->volume->id))
        return kz_call_in_folder(file, call, bytes);
    return name ? call_memory(file, call, bytes, room) : (KzFolderAnswer){.status = KZS_FILE_NOT_FOUND};
}

bool kz_is_in_sectors(const KzFile *file, uint64_t offset, uint64_t length)
{
    USHORT sector = file->volume->sector;
    return offset % sector == 0 && length % sector == 0;
}

uint64_t kz_size_of(const KzFile *file)
{
    if (!file->name)
        return 0;
    kz_is_there(file->name);
    return file->name->stream->size;
}

static void note_change(const KzFile *file, ULONG what)
{
    KzRecord *record = file->name->file;
    record->written = record->changed = kz_time();
    kz_notify(file->name, what, FILE_ACTION_MODIFIED);
}

void kz_note_written(const KzFile *file, uint64_t offset, size_t length)
{
    KzStream *stream = file->name->stream;
    if (length && offset + length > stream->size)
        stream->size = offset + length;
    if (length && offset + length > stream->valid)
        stream->valid = offset + length;
    note_change(file, FILE_NOTIFY_CHANGE_LAST_WRITE | FILE_NOTIFY_CHANGE_SIZE);
}

void kz_note_size(const KzFile *file, uint64_t size)
{
    KzStream *stream = file->name->stream;
    uint64_t before = stream->size;
    if (size != before)
        kz_journal(file->name, size < before ? USN_REASON_DATA_TRUNCATION : USN_REASON_DATA_EXTEND);
    stream->size = size;
    stream->valid = stream->valid < size ? stream->valid : size;
    kz_stream_is_cut(stream, size);
    note_change(file, FILE_NOTIFY_CHANGE_SIZE);
}

static NTSTATUS change(KzFile *file, const KazdrinData *call, const uint8_t *bytes)
{
    kz_uses_stream(file->name, KZU_WRITES);
    return kz_ntstatus(kz_call_stream(file, call, bytes, NULL).status);
}

NTSTATUS kz_resize(KzFile *file, uint64_t size)
{
    NTSTATUS status = change(file, &(KazdrinData){.operation = KZE_SET_SIZE, .offset = size}, NULL);
    if (NT_SUCCESS(status))
        kz_note_size(file, size);
    return status;
}

NTSTATUS kz_grow(KzFile *file, uint64_t size)
{
    NTSTATUS status = change(file, &(KazdrinData){.operation = KZE_SET_SIZE, .offset = size}, NULL);
    if (NT_SUCCESS(status))
        file->name->stream->size = size;
    return status;
}

NTSTATUS kz_write_stream(KzFile *file, uint64_t offset, const uint8_t *bytes, size_t length)
{
    NTSTATUS status = change(file, &(KazdrinData){.operation = KZE_WRITE, .offset = offset, .length = length}, bytes);
    if (NT_SUCCESS(status)) {
        kz_journal_write(file->name, offset, length, file->name->stream->size);
        kz_note_written(file, offset, length);
    }
    return status;
}

const KzModule kz_stream_module = {KZ_STATE(stream)};
