/* Calls of the base. */
#include "manager/base.h"

#include "cache/cache.h"
#include "core/client.h"
#include "core/module.h"
#include "core/op.h"
#include "core/state.h"
#include "core/status.h"
#include "filesystem/call.h"
#include "filesystem/deletion.h"
#include "filesystem/disk.h"
#include "filesystem/name.h"
#include "filesystem/oplocks.h"
#include "filesystem/record.h"
#include "filesystem/sharing.h"
#include "filesystem/spelling.h"
#include "filesystem/sectors.h"
#include "filesystem/stream.h"
#include "filesystem/ranges.h"
#include "filesystem/tree.h"
#include "manager/below.h"
#include "manager/breaks.h"
#include "manager/bypass.h"
#include "manager/operation.h"
#include "manager/opaque.h"
#include "manager/paging.h"
#include "manager/disposition.h"
#include "manager/perform.h"

static void answer(KzOp *op, NTSTATUS status, const uint8_t *bytes, size_t length)
{
    bool is_exact;
    uint32_t number = kz_number(status, &is_exact);
    if (status == STATUS_REPARSE)
        number = KZS_DEVICE_FAULT; /* nothing is opened */
    KazdrinEvent event = {.worker = kz_worker(), .status = (uint8_t)number, .offset = length, .flag = length > 0};
    op->other = is_exact && status != STATUS_REPARSE ? STATUS_SUCCESS : status;
    op->is_answered = true;
    op->answered = status;
    kazdrin_based(&kz.manager, &event, length ? bytes : (const uint8_t *)"", length);
}

/* A filter may have changed where it is, or how long. A request's own paging I/O is as it says. */
static bool is_unaligned(const KzOp *op, const KazdrinData *call)
{
    bool is_write = call->operation == KZE_WRITE, is_data = is_write || call->operation == KZE_READ;
    bool is_uncached = kz_is_for_cache(op) || (op->file->object.Flags & FO_NO_INTERMEDIATE_BUFFERING && !(op->own.irp_flags & IRP_PAGING_IO));
    return is_data && is_uncached && !kz_is_in_sectors(op->file, call->offset, is_write ? call->length : call->len);
}

/* What the virtual memory writes never makes a file larger: what stands past its end is nothing. */
static void cut_past_end(const KzOp *op, KazdrinData *call)
{
    uint64_t size = op->file->name ? op->file->name->stream->size : 0;
    if (op->own.irp_flags & IRP_PAGING_IO && call->operation == KZE_WRITE && call->offset + call->length > size)
        call->length = call->offset < size ? size - call->offset : 0;
}

static bool is_locked(const KzOp *op, const KazdrinData *call)
{
    bool is_write = call->operation == KZE_WRITE;
    if ((!is_write && call->operation != KZE_READ) || op->own.irp_flags & IRP_PAGING_IO)
        return false;
    return kz_is_locked(op->file, call->offset, is_write ? call->length : call->len, is_write);
}

/* What the host answers of the manager's own operations. */
static bool answers(KzOp *op, const KazdrinData *call, NTSTATUS *answered)
{
    NTSTATUS status = STATUS_FILE_LOCK_CONFLICT;
    size_t length = 0;
    bool is_listed = call->operation == KZE_LIST && !kz_is_in_folder(op->volume->id);
    if (is_listed) {
        bool fits = kz_list_names_of(op->volume, kz_me->room, KZ_BYTES, &length);
        status = fits ? STATUS_SUCCESS : kz_ntstatus(KZS_TOO_MANY);
        length = fits ? length : 0;
    } else if (!is_locked(op, call) && !kz_answers_call(op, call, &status)) {
        return false;
    }
    *answered = status;
    if (!op->breaks.of)
        answer(op, status, kz_me->room, length);
    return true;
}

/* A create makes or finds its file among the volume's. What a cache asks for changes neither size nor times. */
static void note_uses(const KzOp *op)
{
    bool is_create = op->event == KZE_CREATE, is_changed = is_create || (op->event == KZE_WRITE && !kz_is_for_cache(op));
    if (is_create)
        kz_scheduler->uses(&kz.files, KZU_WRITES);
    if (op->file->name)
        kz_uses_stream(op->file->name, is_changed ? KZU_WRITES : KZU_READS);
}

/* The bytes that paging I/O comes to, wherever filters sent it. */
static void note_bytes(const KzOp *op, const KazdrinData *call)
{
    bool is_write = op->event == KZE_WRITE;
    uint64_t length = is_write ? call->length : call->len, end = kz_pages_of(call->offset + length);
    for (uint64_t page = call->offset / KZ_PAGE; kz_is_for_cache(op) && page < end; page++)
        kz_scheduler->uses((const void *)(((uintptr_t)op->file->name->stream << 16) + (uintptr_t)page * sizeof page), is_write ? KZU_WRITES : KZU_READS);
}

/* What is written, if anything is, and what is read lie in the client's room. */
static void call_bytes(KzOp *op, const KazdrinData *call, uint8_t worker)
{
    if (call->operation == KZE_WRITE)
        kazdrin_lent(&kz.manager, &(KazdrinEvent){.worker = worker}, &(KazdrinData){0}, kz_me->room, sizeof kz_me->room);
    KzFolderAnswer answer = kz_call_stream(op->file, call, kz_me->room, kz_me->room);
    if (call->operation == KZE_WRITE && answer.status == KZS_OK)
        kz_show_write(op, call, kz_me->room);
    KazdrinEvent returned = {.worker = worker, .status = answer.status, .offset = answer.information, .flag = answer.length > 0};
    kazdrin_based(&kz.manager, &returned, answer.length > 0 ? answer.bytes : (const uint8_t *)"", answer.length);
    if (!kz_is_for_cache(op)) /* the times are those of the write that changed the page */
        kz_note_call(op, call);
}

/* A read or a write: by the stream's pages, or by the file itself. */
static void call_data(KzOp *op, const KazdrinData *call, uint8_t worker)
{
    size_t length = 0;
    bool is_past = call->operation == KZE_READ ? call->offset >= op->file->name->stream->size || !call->len : !call->length;
    bool is_by_pages = kz_goes_by_pages(op) && !is_past;
    NTSTATUS status = is_by_pages ? kz_call_pages(op, call, &length) : kz_goes_by_pages(op) ? STATUS_SUCCESS : kz_begin_uncached(op, call);
    kz_goes_alone(op); /* other operations may have gone on within it */
    note_uses(op);
    note_bytes(op, call);
    if (is_by_pages || !NT_SUCCESS(status)) {
        answer(op, status, kz_me->room, NT_SUCCESS(status) ? length : 0);
        return;
    }
    call_bytes(op, call, worker);
    if (!kz_goes_by_pages(op))
        kz_end_uncached(op, call);
}

/* A read or a write of the volume's own sectors. */
static void call_sectors(KzOp *op, const KazdrinData *call, uint8_t worker)
{
    size_t length;
    bool is_write = call->operation == KZE_WRITE;
    if (is_write)
        kazdrin_lent(&kz.manager, &(KazdrinEvent){.worker = worker}, &(KazdrinData){0}, kz_me->room, sizeof kz_me->room);
    NTSTATUS status = kz_call_sectors(op->file, call, kz_me->room, &length);
    if (!is_write || !NT_SUCCESS(status))
        answer(op, status, kz_me->room, length);
    else
        kazdrin_based(&kz.manager, &(KazdrinEvent){.worker = worker, .status = KZS_OK, .offset = length}, (const uint8_t *)"", 0);
}

/* Whether it gives the file a handle, as far as the names say. */
static bool opens_bytes(const KzOp *op, uint8_t mode, bool was_there)
{
    return kz_exists(op->file->name) && (mode == 0 ? was_there : mode == 1 ? !was_there : true);
}

/* A create that some instance may hear of. */
static void call_create(KzOp *op, const KazdrinData *call, uint8_t worker)
{
    NTSTATUS status;
    bool was_there = kz_is_there(op->file->name), had_file = op->file->name->file->exists, is_opened;
    NTSTATUS refused = op->is_misnamed ? STATUS_OBJECT_NAME_INVALID : kz_spelling_refuses(op->file, &op->create, was_there, kz_is_directory(op->file->name));
    if (!NT_SUCCESS(refused)) {
        answer(op, refused, NULL, 0);
        return;
    }
    if (answers(op, call, &status)) {
        is_opened = NT_SUCCESS(status) && !op->met.point && !op->breaks.of;
        if (op->met.point)
            kz_show_tag(op);
    } else {
        call_bytes(op, call, worker);
        is_opened = opens_bytes(op, call->mode, was_there);
    }
    if (!is_opened)
        return;
    kz_count_open(op->file);
    kz_begin_version(op->file, &op->create, was_there, had_file);
    kz_note_opened(op, was_there, had_file);
    if (op->breaks.goes_beside)
        op->other = op->answered = STATUS_OPLOCK_BREAK_IN_PROGRESS;
}

/* It goes to the file itself, below its pages. */
static bool is_of_zeros(const KzOp *op)
{
    return op->opaque->major == IRP_MJ_FILE_SYSTEM_CONTROL && op->opaque->first.FileSystemControl.Common.FsControlCode == FSCTL_SET_ZERO_DATA;
}

static NTSTATUS answer_zeros(KzOp *op)
{
    NTSTATUS status = kz_begin_control(op->file);
    if (NT_SUCCESS(status))
        status = kz_answer_opaque(op);
    kz_note_zeros(op->file);
    return status;
}

static bool call_opaque(KzOp *op)
{
    NTSTATUS status;
    if (!kz_manages_bypass(op, &status))
        status = is_of_zeros(op) ? answer_zeros(op) : kz_answer_opaque(op);
    if (status != STATUS_PENDING) {
        answer(op, status, NULL, 0);
        return true;
    }
    if (!op->breaks.of)
        kz_keep_waiting(op);
    return false;
}

/* What goes by the stream's pages needs no device; what the cache itself asks for does if it is of pages. */
static bool reaches_device(const KzOp *op)
{
    return op->event != KZE_CLEANUP && op->event != KZE_CLOSE && !kz_goes_by_pages(op) && !(op->opaque && kz_is_for_cache(op));
}

/* Its handle was opened in a transaction that is over: it is good for its end alone. */
static bool is_orphan(const KzOp *op)
{
    return op->file->transaction && op->file->transaction->step == KZ_IS_OVER && op->event != KZE_CLEANUP && op->event != KZE_CLOSE;
}

/* Whether the device fails; one that waited in the file system was asked before. */
static bool is_failed(KzOp *op)
{
    KazdrinEvent failed = {.worker = kz_worker(), .status = KZS_DEVICE_FAULT};
    bool has_come = op->breaks.has_come;
    op->breaks.has_come = true;
    bool fails = !has_come && reaches_device(op) && (kz_is_for_cache(op) ? kz_refuses(KZ_CHOICE_PAGING, "paging I/O") : kz_refuses(KZ_CHOICE_DEVICE, "the device"));
    return fails && kazdrin_based(&kz.manager, &failed, (const uint8_t *)"", 0) == KZS_OK;
}

/* False: the file system keeps it, or an oplock's break is to be over first. */
static bool call_file_system(KzOp *op)
{
    uint8_t none, worker = kz_worker();
    NTSTATUS status;
    KazdrinData call = {0};
    if (is_failed(op))
        return true;
    op->comes_from_device = !op->own.is_fast; /* that one is answered in the thread that asks */
    if (is_orphan(op) && !kz_is_for_cache(op)) {
        answer(op, STATUS_HANDLE_NO_LONGER_VALID, NULL, 0);
        return true;
    }
    if (op->opaque)
        return call_opaque(op);
    note_uses(op);
    if (op->own.is_fast && op->file->name && !kz_lets_fast_by(op->file->name->stream->oplock)) {
        answer(op, STATUS_FLT_DISALLOW_FAST_IO, NULL, 0);
        return true;
    }
    if (op->event != KZE_CREATE && kz_meets_oplock(op))
        return false;
    kazdrin_lent(&kz.manager, &(KazdrinEvent){.worker = worker}, &call, &none, 0);
    if (call.operation == KZE_WRITE && call.offset == KZ_AT_END)
        call.offset = kz_size_of(op->file);
    bool is_refused = is_unaligned(op, &call);
    cut_past_end(op, &call);
    bool cuts = call.operation == KZE_SET_SIZE && op->file->name;
    if (is_refused)
        answer(op, STATUS_INVALID_PARAMETER, NULL, 0);
    else if (cuts && kz_is_mapped(op, op->file->name->stream, call.offset))
        answer(op, STATUS_USER_MAPPED_FILE, NULL, 0);
    else if (call.operation == KZE_CREATE && op->file->name)
        call_create(op, &call, worker);
    else if (op->file->is_volume && (call.operation == KZE_READ || call.operation == KZE_WRITE))
        call_sectors(op, &call, worker);
    else if (answers(op, &call, &status))
        return true;
    else if (op->file->name)
        call_data(op, &call, worker);
    else
        call_bytes(op, &call, worker);
    return !op->breaks.of;
}

bool kz_call_base(KzOp *op)
{
    while (!call_file_system(op)) {
        if (!op->breaks.of || kz_waits_apart(op))
            return false;
        if (!kz_has_break_ended(op)) {
            answer(op, STATUS_CANNOT_BREAK_OPLOCK, NULL, 0);
            return true;
        }
    }
    return true;
}

void kz_go_on_from_base(KzOp *op, NTSTATUS status)
{
    KzPlace before = kz_me->place;
    kz_me->place.worker = op->own.worker;
    op->is_waiting = false;
    kz_scheduler->touch(op, 0, KZT_TAKES);
    bool is_answered = true;
    if (status == STATUS_PENDING) /* it comes to the file system again */
        is_answered = kz_call_base(op);
    else
        answer(op, status, NULL, 0);
    kz_me->place = before;
    if (is_answered)
        kz_go_on(op);
}
