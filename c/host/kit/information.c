/* What a driver asks of a file by itself, and sets: operations of which those below hear. The size, its change and a plain deletion have kinds of their own. */
#include "kit/information.h"

#include "core/client.h"
#include "core/op.h"
#include "core/told.h"
#include "filesystem/deletion.h"
#include "filesystem/handle.h"
#include "filesystem/query.h"
#include "manager/below.h"
#include "manager/instance.h"
#include "kit/io.h"

static NTSTATUS ask_standard(PFLT_INSTANCE instance, KzFile *file, PFILE_STANDARD_INFORMATION said)
{
    const KzOwn own = {.initiator = instance, .is_waited_for = true};
    KzAnswer answer = kz_below_file(&own, file, (KazdrinEvent){.event = KZE_QUERY_SIZE}, "", 0);
    NTSTATUS status = kz_status_of(answer);
    if (NT_SUCCESS(status))
        kz_show_size(file, answer.reply.information, said);
    return status;
}

NTSTATUS kz_query_below(PFLT_INSTANCE instance, PFILE_OBJECT object, PVOID to, ULONG room, FILE_INFORMATION_CLASS class, PULONG used, const char *call)
{
    uint64_t information = 0;
    KzFile *file = kz_may_use(call, instance) ? kz_opened_file(object, call) : NULL;
    *used = 0;
    if (!file)
        return STATUS_INVALID_PARAMETER;
    if (class == FileStandardInformation) {
        FILE_STANDARD_INFORMATION said;
        NTSTATUS status = ask_standard(instance, file, &said);
        if (NT_SUCCESS(status) && room < sizeof said)
            return STATUS_INFO_LENGTH_MISMATCH;
        if (NT_SUCCESS(status))
            memcpy(to, &said, *used = sizeof said);
        return status;
    }
    const KzAsked asked = {.major = IRP_MJ_QUERY_INFORMATION, .code = (ULONG)class, .room = room, .irp_flags = IRP_BUFFERED_IO};
    NTSTATUS status = kz_ask_below(instance, file, &asked, to, &information);
    *used = (ULONG)information;
    return status;
}

NTSTATUS FltQueryInformationFile(PFLT_INSTANCE Instance, PFILE_OBJECT FileObject, PVOID FileInformation, ULONG Length,
                                 FILE_INFORMATION_CLASS FileInformationClass, PULONG LengthReturned)
{
    KZ_CALL();
    ULONG used;
    NTSTATUS status = kz_query_below(Instance, FileObject, FileInformation, Length, FileInformationClass, &used, __func__);
    if (LengthReturned)
        *LengthReturned = used;
    return status;
}

NTSTATUS FsRtlGetFileSize(PFILE_OBJECT FileObject, PLARGE_INTEGER FileSize)
{
    KZ_CALL();
    kz_acts_as_driver();
    FILE_STANDARD_INFORMATION standard;
    ULONG used;
    NTSTATUS status = kz_query_below(NULL, FileObject, &standard, sizeof standard, FileStandardInformation, &used, __func__);
    if (NT_SUCCESS(status))
        *FileSize = standard.EndOfFile;
    return status;
}

/* ---- Setting. */
NTSTATUS kz_set_below(PFLT_INSTANCE instance, PFILE_OBJECT object, PVOID from, ULONG length, FILE_INFORMATION_CLASS class, const char *call)
{
    const KzOwn own = {.initiator = instance, .is_waited_for = true};
    uint64_t information;
    KzFile *file = kz_may_use(call, instance) ? kz_opened_file(object, call) : NULL;
    if (!file)
        return STATUS_INVALID_PARAMETER;
    bool is_end = class == FileEndOfFileInformation && length >= sizeof(FILE_END_OF_FILE_INFORMATION) && !file->is_directory;
    if (is_end)
        return kz_status_of(kz_below_file(&own, file, (KazdrinEvent){.event = KZE_SET_SIZE, .offset = (uint64_t)((PFILE_END_OF_FILE_INFORMATION)from)->EndOfFile.QuadPart}, "", 0));
    return kz_ask_below(instance, file, &(KzAsked){.major = IRP_MJ_SET_INFORMATION, .code = (ULONG)class, .input = from, .input_size = length, .irp_flags = IRP_BUFFERED_IO}, NULL, &information);
}

NTSTATUS FltSetInformationFile(PFLT_INSTANCE Instance, PFILE_OBJECT FileObject, PVOID FileInformation, ULONG Length, FILE_INFORMATION_CLASS FileInformationClass)
{
    KZ_CALL();
    return kz_set_below(Instance, FileObject, FileInformation, Length, FileInformationClass, __func__);
}

/* ---- By a handle, from the top of the stack. */
static PFILE_OBJECT object_of(HANDLE handle, const char *call)
{
    KzFile *file = kz_asked_file(handle, call);
    return file ? &file->object : NULL;
}

NTSTATUS ZwQueryInformationFile(HANDLE FileHandle, PIO_STATUS_BLOCK IoStatusBlock, PVOID FileInformation, ULONG Length, FILE_INFORMATION_CLASS FileInformationClass)
{
    KZ_CALL();
    ULONG used;
    PFILE_OBJECT object = object_of(FileHandle, __func__);
    if (!object)
        return STATUS_INVALID_HANDLE;
    NTSTATUS status = kz_query_below(NULL, object, FileInformation, Length, FileInformationClass, &used, __func__);
    return kz_put_status(IoStatusBlock, status, used);
}

NTSTATUS ZwSetInformationFile(HANDLE FileHandle, PIO_STATUS_BLOCK IoStatusBlock, PVOID FileInformation, ULONG Length, FILE_INFORMATION_CLASS FileInformationClass)
{
    KZ_CALL();
    PFILE_OBJECT object = object_of(FileHandle, __func__);
    if (!object)
        return STATUS_INVALID_HANDLE;
    return kz_put_status(IoStatusBlock, kz_set_below(NULL, object, FileInformation, Length, FileInformationClass, __func__), 0);
}
