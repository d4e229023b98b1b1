/* The folder that a rename or a link leads to. The system opens it first, so that who hears of creates may refuse it or lead it elsewhere; the rename has its file object along. */
#include "manager/target.h"

#include "core/client.h"
#include "core/kept.h"
#include "core/status.h"
#include "filesystem/fileobject.h"
#include "filesystem/name.h"
#include "filesystem/rename.h"
#include "filesystem/tree.h"
#include "manager/below.h"
#include "manager/reparse.h"

typedef struct {
    PFLT_INSTANCE initiator;
    const KzFile *renamed;
    KzFile *folder;
} Opening;

static bool is_rename(const KzAsked *asked)
{
    ULONG class = asked->code;
    return asked->major == IRP_MJ_SET_INFORMATION && (class == FileRenameInformation || class == FileRenameInformationEx || class == FileLinkInformation || class == FileLinkInformationEx);
}

/* Where to, if its name says more than a name in the same folder. */
static bool leads_to(const KzFile *file, const KzAsked *asked, char *text, size_t size)
{
    const FILE_RENAME_INFORMATION *said = asked->input;
    size_t head = offsetof(FILE_RENAME_INFORMATION, FileName);
    if (!is_rename(asked) || asked->input_size < head + sizeof(WCHAR) || asked->input_size - head < said->FileNameLength)
        return false;
    return (said->RootDirectory || said->FileName[0] == L'\\') && kz_destination(file, said->RootDirectory, said->FileName, said->FileNameLength, text, size);
}

static bool is_folder(PFLT_VOLUME volume, const char *path)
{
    KzName *name = kz_take_name(volume, path);
    bool is_there = name && kz_is_there(name) && kz_is_directory(name);
    kz_let_go_name(name);
    return is_there;
}

static KzAnswer begin(void *given, KazdrinEvent asked, const char *path)
{
    Opening *opening = given;
    PFLT_VOLUME volume = kz.volumes[asked.volume];
    const char *slash = strrchr(path, '/');
    char above[KZ_PATH];
    const KzCreate create = {.access = (opening->renamed->is_directory ? FILE_ADD_SUBDIRECTORY : FILE_ADD_FILE) | SYNCHRONIZE,
                             .options = FILE_OPEN << 24 | FILE_OPEN_FOR_BACKUP_INTENT,
                             .share = FILE_SHARE_READ | FILE_SHARE_WRITE,
                             .is_target = true};
    const KzOwn own = {.initiator = opening->initiator, .is_waited_for = true, .create = &create};
    snprintf(above, sizeof above, "%.*s", slash ? (int)(slash - path) : 0, path);
    if (volume != opening->renamed->volume)
        return (KzAnswer){.reply.status = KZS_BAD_PATH, .other = STATUS_NOT_SAME_DEVICE};
    KzFile *folder = kz_new_file(volume, above, true);
    folder->users++;
    folder->is_own = true;
    folder->opener = opening->initiator;
    kz_name_object(folder, path);
    KzAnswer answer = kz_below(&own, folder, asked, above, strlen(above));
    opening->folder = answer.reply.status == KZS_OK && !answer.reply.held ? folder : NULL;
    if (opening->folder)
        kz_hide_number(folder->handle);
    else
        kz_let_go_file(folder);
    return answer;
}

static NTSTATUS open_folder(Opening *opening, const char *text)
{
    PFLT_VOLUME volume = opening->renamed->volume;
    const KazdrinEvent event = {.event = KZE_CREATE, .volume = volume->id};
    char above[KZ_WHOLE_PATH];
    strcpy(above, text);
    char *slash = strrchr(above, '/');
    *(slash ? slash : above) = '\0';
    if (volume->makes_folders && !is_folder(volume, above))
        return STATUS_SUCCESS; /* what stands above is made with the name */
    return kz_status_of(kz_follow(begin(opening, event, text), opening, begin));
}

NTSTATUS kz_put_target(PFLT_INSTANCE initiator, KzFile *file, const KzAsked **asked, KzAsked *with)
{
    Opening opening = {initiator, file, NULL};
    char text[KZ_WHOLE_PATH];
    if (!file || !*asked || !leads_to(file, *asked, text, sizeof text))
        return STATUS_SUCCESS;
    NTSTATUS status = open_folder(&opening, text);
    if (!opening.folder)
        return status;
    *with = **asked;
    with->target = opening.folder;
    *asked = with;
    return STATUS_SUCCESS;
}

void kz_close_target(PFLT_INSTANCE initiator, KzFile *folder)
{
    kz_close_below(initiator, folder);
    kz_let_go_file(folder);
}
