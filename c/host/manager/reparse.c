/* A create that a filter answers with STATUS_REPARSE begins anew, from the top, under the name that the filter put into its file object. */
#include "manager/reparse.h"

#include "core/client.h"
#include "core/op.h"
#include "core/piece.h"
#include "core/status.h"
#include "core/told.h"
#include "lib/letters.h"
#include "filesystem/fileobject.h"
#include "filesystem/tag.h"
#include "filesystem/volumes.h"
#include "manager/disposition.h"

enum { MOST = 32 }; /* as often as the kit follows one */

static bool is_reparsed(KzAnswer answer)
{
    return answer.other == STATUS_REPARSE;
}

/* What is to be opened in its place; the client's own until its next create. */
NTSTATUS kz_note_reparse(const KzOp *op)
{
    kz_me->reparsed_create = op->asked;
    if (op->tag)
        return kz_target_of(op, kz_me->reparsed, sizeof kz_me->reparsed) ? STATUS_REPARSE : STATUS_IO_REPARSE_TAG_NOT_HANDLED;
    kz_narrow(kz_me->reparsed, sizeof kz_me->reparsed, &op->file->object.FileName);
    return STATUS_REPARSE;
}

KzAnswer kz_refused(NTSTATUS status)
{
    bool is_exact;
    KzAnswer answer = {.reply.status = kz_number(status, &is_exact)};
    answer.other = is_exact ? STATUS_SUCCESS : status;
    return answer;
}

KzAnswer kz_follow(KzAnswer answer, void *given, KzBeginCreate *begin)
{
    char name[sizeof kz_me->reparsed];
    const char *path;
    for (int round = 0; is_reparsed(answer); round++) {
        memcpy(name, kz_me->reparsed, sizeof name);
        PFLT_VOLUME volume = kz_volume_named(name, &path);
        if (!volume || round == MOST)
            return kz_refused(volume ? STATUS_OBJECT_NAME_NOT_FOUND : STATUS_OBJECT_PATH_NOT_FOUND);
        path += *path == '/';
        answer = begin(given, (KazdrinEvent){.event = KZE_CREATE, .volume = volume->id, .mode = kz_mode_of(kz_me->reparsed_create.options >> 24)}, path);
    }
    return answer;
}

NTSTATUS IoReplaceFileObjectName(PFILE_OBJECT FileObject, PWSTR NewFileName, USHORT FileNameLength)
{
    KZ_INSIDE_ALONE();
    kz_uses_bytes(&FileObject->FileName, sizeof FileObject->FileName, KZU_WRITES);
    kz_uses_bytes(NewFileName, FileNameLength, KZU_READS);
    KzFile *file = kz_file_with(FileObject);
    if (!file) {
        kz_tell(KZM_NO_TARGET, __func__, "no file object");
        return STATUS_INVALID_PARAMETER;
    }
    PVOID room = kz_refuses(KZ_CHOICE_NAME, __func__) ? NULL : kz_take_memory(KZK_NAME, FileNameLength, 0, 0);
    if (!room)
        return STATUS_INSUFFICIENT_RESOURCES;
    memcpy(room, NewFileName, FileNameLength);
    kz_free_file_name(file);
    FileObject->FileName = (UNICODE_STRING){FileNameLength, FileNameLength, room};
    return STATUS_SUCCESS;
}
