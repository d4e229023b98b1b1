/* Open files, as filters see them. */
#include "filesystem/fileobject.h"

#include "core/client.h"
#include "core/memory.h"
#include "core/op.h"
#include "core/piece.h"
#include "core/told.h"
#include "lib/letters.h"
#include "filesystem/deletion.h"
#include "filesystem/name.h"
#include "filesystem/sharing.h"
#include "filesystem/spelling.h"
#include "filesystem/version.h"

#include <stdlib.h>

KzFile *kz_file_of(uint64_t number)
{
    for (KzFile *file = kz.files; file; file = file->next)
        if (file->has_handle && !file->is_own && file->number == number)
            return file;
    return NULL;
}

void kz_hide_number(uint64_t handle)
{
    uint64_t *kept = kz.unheard;
    if ((kz.unheard_count & (kz.unheard_count + 1)) == 0) { /* no room is left */
        kz.unheard = kz_memory((kz.unheard_count + 1) * 2 * sizeof *kept);
        memcpy(kz.unheard, kept ? kept : kz.unheard, kz.unheard_count * sizeof *kept);
        free(kept);
    }
    kz.unheard[kz.unheard_count++] = handle;
}

static uint64_t number_of(uint64_t handle)
{
    size_t lower = kz.unheard_count;
    while (lower > 0 && kz.unheard[lower - 1] > handle)
        lower--;
    return handle - lower;
}

KzFile *kz_file_with(PFILE_OBJECT object)
{
    for (KzFile *file = kz.files; file; file = file->next)
        if (&file->object == object)
            return file;
    return NULL;
}

void kz_name_object(KzFile *file, const char *path)
{
    char text[KZ_WHOLE_PATH];
    snprintf(text, sizeof text, "/%s", path);
    kz_free_file_name(file);
    if (!kz_give_name(&file->object.FileName, text, false)) {
        fprintf(stderr, "no memory\n");
        exit(1);
    }
}

KzFile *kz_new_file(PFLT_VOLUME volume, const char *path, bool is_directory)
{
    KzFile *file = kz_memory(sizeof *file);
    file->volume = volume;
    file->is_directory = is_directory;
    kz_spell_file(file, path);
    kz_name_object(file, file->path);
    file->object.Type = 5;
    file->object.Size = sizeof(FILE_OBJECT);
    file->object.DeviceObject = &volume->disk;
    file->object.SectionObjectPointer = &file->sections;
    file->object.Flags = FO_SYNCHRONOUS_IO;
    InitializeListHead(&file->object.IrpList);
    file->maker = kz_me->number;
    KzFile **place = &kz.files;
    while (*place && (*place)->maker < file->maker)
        place = &(*place)->next;
    file->next = *place;
    *place = file;
    return file;
}

void kz_be_volume(KzFile *file)
{
    file->is_volume = file->is_directory = true;
    file->object.Flags |= FO_VOLUME_OPEN;
    kz_free_file_name(file);
}

/* The file system opened it: what it keeps with a file object is there. */
void kz_file_opened(KzFile *file)
{
    PFILE_OBJECT object = &file->object;
    object->FsContext = file->name ? (PVOID)file->name->stream : (PVOID)file; /* all handles of a stream have the same */
    object->FsContext2 = &file->sections;
    if (file->name)
        object->SectionObjectPointer = &kz_seen_stream(file)->sections;
    object->Flags |= FO_HANDLE_CREATED | (object->Flags & FO_NO_INTERMEDIATE_BUFFERING ? 0 : FO_CACHE_SUPPORTED);
}

void kz_file_answered(KzFile *file, uint64_t handle)
{
    kz_file_opened(file);
    file->handle = handle;
    file->number = number_of(handle);
    file->is_opening = true;
}

/* A file object whose handle a client has, or whose create the file system has answered: those that saw the answer may use it. */
bool kz_handle_of(KzFile *file, uint64_t *handle)
{
    *handle = file->handle;
    return file->has_handle || file->is_opening;
}

bool kz_is_synchronous(const KzOp *op)
{
    return op->file->object.Flags & FO_SYNCHRONOUS_IO || (op->own.is_own && !op->own.is_user && op->own.is_waited_for);
}

void kz_free_file(KzFile *file)
{
    free(file->path);
    free(file->scan.pattern);
    free(file->scan.last);
    free(file);
}

void kz_let_go_file(KzFile *file)
{
    if (--file->users > 0)
        return;
    for (KzFile **at = &kz.files; *at; at = &(*at)->next)
        if (*at == file) {
            *at = file->next;
            break;
        }
    kz_free_file_name(file);
    kz_let_go_name(file->name);
    kz_free_file(file);
}

/* Numbers that are no handle of a driver's own. */
enum { ROOTS = 0x40000000 };

HANDLE kz_root_handle(uint64_t handle)
{
    return (HANDLE)(uintptr_t)(ROOTS + 4 * handle);
}

KzFile *kz_file_of_client(HANDLE root)
{
    uint64_t number = (uint64_t)(uintptr_t)root;
    return number >= ROOTS && number % 4 == 0 ? kz_file_of((number - ROOTS) / 4) : NULL;
}

void kz_drop_file(uint64_t handle)
{
    KzFile *file = kz.files;
    while (file && !(file->has_handle && file->handle == handle))
        file = file->next;
    if (!file)
        return;
    file->has_handle = false;
    kz_stop_sharing(file);
    kz_count_no_open(file);
    kz_let_go_file(file);
}

/* A filter may put another name into a file object, in memory of its pool: that is the file object's from then on. */
void kz_adopt_name(KzFile *file)
{
    KzPiece *piece = kz_piece_of(file->object.FileName.Buffer);
    if (piece && piece->kind == KZK_POOL)
        piece->filter = NULL;
}

void kz_free_file_name(KzFile *file)
{
    PVOID name = file->object.FileName.Buffer;
    if (!name)
        return;
    if (kz_piece_of(name))
        kz_give_back(name);
    else
        kz_tell(KZM_NO_POOL, "FILE_OBJECT", "FileName.Buffer of \\%s is memory that isn't a pool's: the file object frees it", file->path);
    file->object.FileName = (UNICODE_STRING){0, 0, NULL};
}
