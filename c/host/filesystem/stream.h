/* Streams of files, and their bytes, whatever keeps these: memory, or a folder of the host machine. */
#ifndef KZ_FILESYSTEM_STREAM_H
#define KZ_FILESYSTEM_STREAM_H

#include "host.h"
#include "core/client.h"
#include "filesystem/folder.h"
#include "filesystem/tree.h"
#include "filesystem/version.h"

extern const struct KzModule kz_stream_module;
/* By its name, whatever the case of that; NULL: a file has none of that name. */
KzStream *kz_stream_of(const KzRecord *record, const char *name);
/* It isn't there yet. */
KzStream *kz_add_stream(KzRecord *record, const char *name, size_t length);
void kz_free_stream(KzStream *stream);
/* It is there from now on, and empty. */
void kz_begin_stream(KzStream *stream);
/* It isn't there any more: nobody finds it by its name, and with the last name that leads to it it is forgotten. */
void kz_end_stream(KzStream *stream);
/* It is called so from now on. */
void kz_name_stream(KzStream *stream, const char *name);

/* Its bytes and size, and the times of its file. */
void kz_uses_stream(const KzName *name, KzUse how);

/* ---- Bytes. */
/* A call of the base, with what is written; what is read lies in the room until the next one. */
KzFolderAnswer kz_call_stream(KzFile *file, const KazdrinData *call, const uint8_t *bytes, uint8_t *room);
/* What isn't cached goes by whole sectors. */
bool kz_is_in_sectors(const KzFile *file, uint64_t offset, uint64_t length);
/* As large as it is now: a folder of the machine is asked. */
uint64_t kz_size_of(const KzFile *file);
/* The file, which may be about to be opened, has that size, and no instance hears of it. */
NTSTATUS kz_resize(KzFile *file, uint64_t size);
/* The same for a write that goes past its end, which tells of both. */
NTSTATUS kz_grow(KzFile *file, uint64_t size);
NTSTATUS kz_write_stream(KzFile *file, uint64_t offset, const uint8_t *bytes, size_t length);
/* Its bytes were written, or it has another size: times, notices. */
void kz_note_written(const KzFile *file, uint64_t offset, size_t length);
void kz_note_size(const KzFile *file, uint64_t size);

#endif
