/* Reads, writes and flushes that a driver begins by itself. Those of more bytes than the manager takes at once are several operations. */
#include "kit/io.h"

#include "cache/paging.h"
#include "core/client.h"
#include "core/memory.h"
#include "core/op.h"
#include "core/place.h"
#include "core/state.h"
#include "core/told.h"
#include "filesystem/fileobject.h"
#include "filesystem/handle.h"
#include "filesystem/stream.h"
#include "manager/below.h"
#include "manager/disposition.h"
#include "manager/hand.h"
#include "manager/instance.h"

#include <stdlib.h>

/* What goes on between a driver's buffer and a file. */
typedef struct {
    KzOwn own;
    KzFile *file;
    uint8_t *buffer;
    uint64_t offset;
    ULONG length, done;
} Transfer;

/* Where its next part is: each at the end, where the first one is there. */
static uint64_t place_of(const Transfer *one)
{
    return one->offset == KZ_AT_END ? KZ_AT_END : one->offset + one->done;
}

static NTSTATUS read_part(Transfer *one, ULONG size)
{
    KazdrinEvent asked = {.event = KZE_READ, .offset = place_of(one), .len = size};
    KzAnswer answer = kz_below_file(&one->own, one->file, asked, "", 0);
    NTSTATUS status = kz_status_of(answer);
    size_t there = NT_SUCCESS(status) && answer.length < size ? answer.length : size;
    if (!NT_SUCCESS(status))
        return one->done ? STATUS_SUCCESS : status; /* it ends where the file does */
    memcpy(one->buffer + one->done, kz_me->room, there);
    one->done += (ULONG)there;
    if (there < size)
        one->length = one->done;
    return status;
}

static NTSTATUS write_part(Transfer *one, ULONG size)
{
    KazdrinEvent asked = {.event = KZE_WRITE, .offset = place_of(one)};
    NTSTATUS status = kz_status_of(kz_below_file(&one->own, one->file, asked, one->buffer + one->done, size));
    one->done += NT_SUCCESS(status) ? size : 0;
    return status;
}

static NTSTATUS transfer(Transfer *one, NTSTATUS (*part)(Transfer *, ULONG))
{
    NTSTATUS status;
    do {
        ULONG before = one->done, rest = one->length - one->done;
        status = part(one, rest < KZ_BYTES ? rest : KZ_BYTES);
        if (one->done == before)
            break;
    } while (NT_SUCCESS(status) && one->done < one->length);
    return status;
}

/* ---- By a file object, for those below the instance. */
KzFile *kz_opened_file(PFILE_OBJECT object, const char *call)
{
    uint64_t handle;
    KzFile *file = kz_file_with(object);
    if (file && kz_handle_of(file, &handle))
        return file;
    kz_tell(KZM_NOT_OPENED, call, file ? "a file object that isn't open: its create isn't answered yet, failed, or its close is over" : "no file object");
    return NULL;
}

static ULONG irp_flags_of(FLT_IO_OPERATION_FLAGS flags)
{
    ULONG irp = flags & FLTFL_IO_OPERATION_NON_CACHED ? IRP_NOCACHE : 0;
    if (flags & FLTFL_IO_OPERATION_PAGING)
        irp |= IRP_NOCACHE | IRP_PAGING_IO;
    return flags & FLTFL_IO_OPERATION_SYNCHRONOUS_PAGING ? irp | IRP_NOCACHE | IRP_PAGING_IO | IRP_SYNCHRONOUS_PAGING_IO : irp;
}

static bool is_aligned(const Transfer *one)
{
    return !(one->own.irp_flags & IRP_NOCACHE) || kz_is_in_sectors(one->file, one->offset, one->length);
}

/* ---- What isn't waited for: its routine is called once it is over, by whoever came to its end. */
typedef struct {
    KzTransfer asked;
    bool is_write;
    PFLT_FILTER filter;
    FLT_IO_PARAMETER_BLOCK iopb;
    FLT_CALLBACK_DATA data;
} Later;

static void call_routine(Later *later, PFLT_CALLBACK_DATA data)
{
    uint8_t worker = kz_helper();
    KzPlace before = kz_enter(KZ_IN_COMPLETION, worker, later->filter, later->asked.instance, NULL, NULL);
    kz_call_at(DISPATCH_LEVEL); /* as the kit may have it */
    unsigned depth = kz_let_driver("completion", later->asked.routine);
    KZ_CALL_DRIVER(later->asked.routine, data, later->asked.context);
    kz_driver_returned(depth, "completion returns");
    kz_keep_rest(NULL);
    kz_leave(before);
    kz_helped(worker);
}

static void end_later(void *given, NTSTATUS status, uint64_t information, const uint8_t *bytes, size_t length)
{
    Later *later = given;
    PFLT_CALLBACK_DATA data = later->asked.data ? later->asked.data : &later->data;
    size_t there = later->is_write || !NT_SUCCESS(status) ? 0 : length < later->asked.length ? length : later->asked.length;
    memcpy(later->asked.buffer, bytes, there);
    data->IoStatus = (IO_STATUS_BLOCK){.Status = status, .Information = !NT_SUCCESS(status) ? 0 : later->is_write ? information : there};
    call_routine(later, data);
    free(later);
}

static Later *new_later(const KzTransfer *asked, bool is_write)
{
    Later *made = kz_memory(sizeof *made);
    made->asked = *asked;
    made->is_write = is_write;
    made->filter = kz_me->place.filter;
    made->iopb = (FLT_IO_PARAMETER_BLOCK){.MajorFunction = is_write ? IRP_MJ_WRITE : IRP_MJ_READ, .TargetFileObject = asked->object, .TargetInstance = asked->instance};
    FLT_CALLBACK_DATA data = {.Flags = FLTFL_CALLBACK_DATA_IRP_OPERATION | FLTFL_CALLBACK_DATA_GENERATED_IO,
                              .Thread = PsGetCurrentThread(),
                              .Iopb = &made->iopb,
                              .RequestorMode = KernelMode};
    memcpy(&made->data, &data, sizeof data);
    return made;
}

/* One that is too long for one operation is carried out before the call returns. */
static NTSTATUS begin_later(const KzTransfer *asked, Transfer *one, bool is_write)
{
    Later *later = new_later(asked, is_write);
    if (one->length > KZ_BYTES) {
        NTSTATUS status = transfer(one, is_write ? write_part : read_part);
        later->is_write = true; /* the bytes are there */
        end_later(later, status, one->done, (const uint8_t *)"", 0);
        return STATUS_PENDING;
    }
    one->own.is_waited_for = false;
    one->own.data = asked->data;
    one->own.done = end_later;
    one->own.given = later;
    KazdrinEvent event = {.event = is_write ? KZE_WRITE : KZE_READ, .offset = one->offset, .len = is_write ? 0 : one->length};
    KzAnswer answer = kz_below_file(&one->own, one->file, event, is_write ? one->buffer : (uint8_t *)"", is_write ? one->length : 0);
    NTSTATUS status = kz_status_of(answer);
    if (answer.reply.held)
        return STATUS_PENDING;
    if (answer.is_refused) {
        free(later);
        return status;
    }
    end_later(later, status, answer.reply.information, kz_me->room, answer.length);
    return STATUS_PENDING;
}

NTSTATUS kz_transfer(const KzTransfer *asked, bool is_write)
{
    KzFile *file = kz_may_use(asked->call, asked->instance) ? kz_opened_file(asked->object, asked->call) : NULL;
    if (!file)
        return STATUS_INVALID_PARAMETER;
    bool keeps_offset = asked->flags & FLTFL_IO_OPERATION_DO_NOT_UPDATE_BYTE_OFFSET;
    LONGLONG offset = (asked->offset ? asked->offset : &asked->object->CurrentByteOffset)->QuadPart;
    Transfer one = {.own = {.initiator = asked->instance, .is_waited_for = true, .irp_flags = irp_flags_of(asked->flags)},
                    .file = file,
                    .buffer = asked->buffer,
                    .offset = is_write ? kz_offset_of(offset) : (uint64_t)offset,
                    .length = asked->length};
    if (!is_aligned(&one))
        return STATUS_INVALID_PARAMETER;
    if (asked->routine)
        return begin_later(asked, &one, is_write);
    NTSTATUS status = transfer(&one, is_write ? write_part : read_part);
    if (asked->done)
        *asked->done = one.done;
    if (NT_SUCCESS(status) && !keeps_offset && !(one.own.irp_flags & IRP_PAGING_IO))
        asked->object->CurrentByteOffset.QuadPart = (LONGLONG)(one.offset == KZ_AT_END ? kz_size_of(file) : one.offset + one.done);
    return status;
}

NTSTATUS FltReadFile(PFLT_INSTANCE InitiatingInstance, PFILE_OBJECT FileObject, PLARGE_INTEGER ByteOffset, ULONG Length, PVOID Buffer,
                     FLT_IO_OPERATION_FLAGS Flags, PULONG BytesRead, PFLT_COMPLETED_ASYNC_IO_CALLBACK CallbackRoutine, PVOID CallbackContext)
{
    KZ_CALL();
    return kz_transfer(&(KzTransfer){InitiatingInstance, FileObject, ByteOffset, Length, Buffer, Flags, BytesRead, CallbackRoutine, CallbackContext, __func__, NULL}, false);
}

NTSTATUS FltWriteFile(PFLT_INSTANCE InitiatingInstance, PFILE_OBJECT FileObject, PLARGE_INTEGER ByteOffset, ULONG Length, PVOID Buffer,
                      FLT_IO_OPERATION_FLAGS Flags, PULONG BytesWritten, PFLT_COMPLETED_ASYNC_IO_CALLBACK CallbackRoutine, PVOID CallbackContext)
{
    KZ_CALL();
    return kz_transfer(&(KzTransfer){InitiatingInstance, FileObject, ByteOffset, Length, Buffer, Flags, BytesWritten, CallbackRoutine, CallbackContext, __func__, NULL}, true);
}

NTSTATUS kz_flush_below(PFLT_INSTANCE instance, PFILE_OBJECT object, const char *call)
{
    const KzOwn own = {.initiator = instance, .is_waited_for = true};
    KzFile *file = kz_may_use(call, instance) ? kz_opened_file(object, call) : NULL;
    return file ? kz_status_of(kz_below_file(&own, file, (KazdrinEvent){.event = KZE_FLUSH}, "", 0)) : STATUS_INVALID_PARAMETER;
}

NTSTATUS FltFlushBuffers(PFLT_INSTANCE Instance, PFILE_OBJECT FileObject)
{
    KZ_CALL();
    return kz_flush_below(Instance, FileObject, __func__);
}

NTSTATUS FltFlushBuffers2(PFLT_INSTANCE Instance, PFILE_OBJECT FileObject, ULONG FlushType, PFLT_CALLBACK_DATA CallbackData)
{
    KZ_CALL();
    (void)CallbackData;
    NTSTATUS status = kz_flush_below(Instance, FileObject, __func__);
    KzFile *file = NT_SUCCESS(status) && FlushType & FLT_FLUSH_TYPE_FLUSH_AND_PURGE ? kz_file_with(FileObject) : NULL;
    if (file && kz_cache_of(file))
        kz_purge_cache(kz_cache_of(file), 0, 0, false);
    return status;
}

/* ---- By a handle, from the top of the stack. */
static NTSTATUS by_handle(HANDLE handle, PIO_STATUS_BLOCK status, PVOID buffer, ULONG length, PLARGE_INTEGER offset, bool is_write, const char *call)
{
    KzFile *file = kz_asked_file(handle, call);
    if (!file)
        return STATUS_INVALID_HANDLE;
    ULONG done = 0;
    bool is_current = !offset || (offset->HighPart == -1 && offset->LowPart == FILE_USE_FILE_POINTER_POSITION);
    LARGE_INTEGER end = {.QuadPart = -1};
    if (is_write && kz_offset_by(file, 0) == KZ_AT_END) {
        offset = &end;
        is_current = false;
    }
    NTSTATUS came = kz_transfer(&(KzTransfer){NULL, &file->object, is_current ? NULL : offset, length, buffer, 0, &done, NULL, NULL, call, NULL}, is_write);
    kz_me->has_pended |= came == STATUS_END_OF_FILE && file->object.PrivateCacheMap && file->object.Flags & FO_SYNCHRONOUS_IO; /* fast I/O says so in the block */
    return kz_put_status(status, came, done);
}

NTSTATUS ZwReadFile(HANDLE FileHandle, HANDLE Event, PVOID ApcRoutine, PVOID ApcContext, PIO_STATUS_BLOCK IoStatusBlock, PVOID Buffer, ULONG Length,
                    PLARGE_INTEGER ByteOffset, PULONG Key)
{
    KZ_CALL();
    (void)Event, (void)ApcRoutine, (void)ApcContext, (void)Key;
    return by_handle(FileHandle, IoStatusBlock, Buffer, Length, ByteOffset, false, __func__);
}

NTSTATUS ZwWriteFile(HANDLE FileHandle, HANDLE Event, PVOID ApcRoutine, PVOID ApcContext, PIO_STATUS_BLOCK IoStatusBlock, PVOID Buffer, ULONG Length,
                     PLARGE_INTEGER ByteOffset, PULONG Key)
{
    KZ_CALL();
    (void)Event, (void)ApcRoutine, (void)ApcContext, (void)Key;
    return by_handle(FileHandle, IoStatusBlock, Buffer, Length, ByteOffset, true, __func__);
}

NTSTATUS ZwFlushBuffersFile(HANDLE FileHandle, PIO_STATUS_BLOCK IoStatusBlock)
{
    KZ_CALL();
    KzFile *file = kz_asked_file(FileHandle, __func__);
    if (!file)
        return STATUS_INVALID_HANDLE;
    return kz_put_status(IoStatusBlock, kz_flush_below(NULL, &file->object, __func__), 0);
}
