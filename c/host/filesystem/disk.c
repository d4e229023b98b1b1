/* What lies below volume 0: a folder of the host machine in place of the file system in memory, if a test named one. */
#include "filesystem/disk.h"

#include "core/client.h"
#include "core/status.h"
#include "filesystem/folder.h"
#include "filesystem/name.h"

#include <string.h>
#include <unistd.h>

/* Descriptors that are left for connections and for calls. */
enum { LEFT = 64 };

/* What was looked at last stands as long as the client is inside without a break, and changes nothing there. */
static struct {
    KzFolder folder;
    long orphans;
    struct {
        const KzClient *client; /* NULL: nothing stands */
        uint64_t moment;
        char path[KZ_PATH];
        KzFound found;
    } seen;
} disk = {.folder = {-1}};

int kz_use_folder(const char *path)
{
    return kz_open_folder(&disk.folder, path);
}

/* ---- The folder's names. */
bool kz_is_in_folder(uint8_t volume)
{
    return disk.folder.descriptor != -1 && volume == 0;
}

static bool is_seen(const char *path)
{
    return disk.seen.client == kz_me && disk.seen.moment == kz_me->moments && strcmp(disk.seen.path, path) == 0;
}

static void forget_seen(void)
{
    disk.seen.client = NULL;
}

bool kz_look_in_folder(uint8_t volume, const char *name, KzFound *found)
{
    if (!kz_is_in_folder(volume))
        return false;
    if (!is_seen(name)) {
        kz_folder_look(&disk.folder, name, &disk.seen.found);
        disk.seen.client = kz_me;
        disk.seen.moment = kz_me->moments;
        snprintf(disk.seen.path, sizeof disk.seen.path, "%s", name);
    }
    *found = disk.seen.found;
    return true;
}

typedef struct {
    PFLT_VOLUME volume;
    const char *directory;
} Entered;

static void enter(void *given, const char *name)
{
    const Entered *entered = given;
    char text[2 * KZ_PATH];
    if (snprintf(text, sizeof text, "%s%s%s", entered->directory, *entered->directory ? "/" : "", name) < KZ_PATH)
        kz_let_go_name(kz_take_name(entered->volume, text));
}

void kz_enter_folder(PFLT_VOLUME volume, const char *name)
{
    Entered entered = {volume, name};
    if (kz_is_in_folder(volume->id))
        kz_folder_entries(&disk.folder, name, enter, &entered);
}

NTSTATUS kz_rename_in_folder(uint8_t volume, const char *from, const char *to, bool is_link, bool replaces)
{
    forget_seen();
    return kz_is_in_folder(volume) ? kz_ntstatus(kz_folder_rename(&disk.folder, from, to, is_link, replaces).status) : STATUS_SUCCESS;
}

bool kz_hold_in_folder(const KzName *name)
{
    if (!kz_is_in_folder(name->volume->id))
        return true;
    if (disk.orphans + LEFT >= sysconf(_SC_OPEN_MAX))
        return false;
    name->stream->orphan = kz_folder_hold(&disk.folder, name->text) + 1;
    disk.orphans += name->stream->orphan != 0;
    return name->stream->orphan;
}

void kz_forget_orphan(KzStream *stream)
{
    if (!stream->orphan)
        return;
    close(stream->orphan - 1);
    stream->orphan = 0;
    disk.orphans--;
}

NTSTATUS kz_make_in_folder(uint8_t volume, const char *name)
{
    forget_seen();
    return kz_is_in_folder(volume) ? kz_ntstatus(kz_folder_make(&disk.folder, name).status) : STATUS_SUCCESS;
}

uint8_t kz_unlink_in_folder(uint8_t volume, const char *name)
{
    forget_seen();
    return kz_is_in_folder(volume) ? kz_folder_unlink(&disk.folder, name).status : KZS_OK;
}

/* ---- Calls. Below the folder a file is what its name leads to now. */
KzFolderAnswer kz_call_in_folder(const KzFile *file, const KazdrinData *call, const uint8_t *bytes)
{
    const char *path = file->name ? file->name->text : "";
    const KzFound *found = is_seen(path) ? &disk.seen.found : NULL;
    if (call->operation == KZE_CREATE && found && found->is_there && !found->is_directory && call->mode != 1)
        return (KzFolderAnswer){.status = KZS_OK};
    if (call->operation == KZE_CREATE && found && !found->is_there && !found->is_other && call->mode == 0)
        return (KzFolderAnswer){.status = KZS_FILE_NOT_FOUND};
    if (call->operation != KZE_READ && call->operation != KZE_QUERY_SIZE)
        forget_seen();
    KzFolder folder = disk.folder;
    folder.orphan = file->name ? file->name->stream->orphan : 0;
    return kz_call_folder(&folder, call, path, bytes);
}
