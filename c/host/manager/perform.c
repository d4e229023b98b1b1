/* Requests, from their beginning to their reply; and what goes on behind them: operations that were let go, closes that are due, what waits for its turn. */
#include "manager/bypass.h"
#include "manager/perform.h"

#include "cache/cache.h"
#include "core/client.h"
#include "core/module.h"
#include "core/op.h"
#include "core/said.h"
#include "core/spell.h"
#include "core/state.h"
#include "core/status.h"
#include "core/unwritten.h"
#include "filesystem/control.h"
#include "filesystem/deletion.h"
#include "filesystem/fileobject.h"
#include "filesystem/name.h"
#include "filesystem/notice.h"
#include "filesystem/oplocks.h"
#include "filesystem/create.h"
#include "filesystem/sharing.h"
#include "filesystem/stream.h"
#include "filesystem/ranges.h"
#include "filesystem/tree.h"
#include "filesystem/waiting.h"
#include "manager/below.h"
#include "manager/opaque.h"
#include "manager/context.h"
#include "manager/disposition.h"
#include "manager/filecontext.h"
#include "manager/mount.h"
#include "manager/operation.h"
#include "manager/outcome.h"
#include "manager/reference.h"
#include "manager/reparse.h"
#include "manager/says.h"
#include "manager/target.h"

static KzAnswer refused(uint32_t status)
{
    return (KzAnswer){.reply.status = status};
}

/* ---- What comes of an operation that is over. */
static void put_served(const KzOp *op, KzAnswer *answer)
{
    if (op->served.has_status)
        answer->reply.status = op->served.status;
    if (op->opaque)
        return;
    answer->reply.information = op->served.number;
    answer->length = op->served.bytes ? op->served.length : 0;
    memcpy(kz_me->room, op->served.bytes ? op->served.bytes : (const uint8_t *)"", answer->length);
}

/* Its bytes are those of the requestor's own buffer. */
static void put_opaque(const KzOp *op, KzAnswer *answer)
{
    NTSTATUS status = answer->other ? answer->other : kz_ntstatus(answer->reply.status);
    const KzOpaque *opaque = op->opaque;
    size_t there = opaque->information < opaque->output_size ? opaque->information : opaque->output_size;
    bool has_bytes = opaque->output && (NT_SUCCESS(status) || status == STATUS_BUFFER_OVERFLOW);
    answer->reply.information = opaque->information;
    answer->length = !has_bytes ? 0 : there < sizeof kz_me->room ? there : sizeof kz_me->room;
    if (answer->length)
        memcpy(kz_me->room, opaque->output, answer->length);
    if (!op->own.is_own)
        kz_say_answer(opaque, answer->length);
}

/* All of its buffer is the requestor's to read. */
static void say_left(const KzOp *op, const KzAnswer *answer)
{
    if (op->opaque && op->opaque->output)
        kz_say_left(op->opaque->output, answer->length, op->opaque->output_size);
    else if (!op->opaque)
        kz_say_left(op->caller, answer->length, op->caller_room);
}

static void open_handle(KzOp *op, KzReply *reply)
{
    kz_file_answered(op->file, reply->information);
    if (!op->own.is_own)
        reply->information = op->file->number;
    op->file->is_opening = false;
    reply->is_handle = 1;
    op->file->has_handle = true;
    op->file->users++;
    kz_count_open(op->file);
    kz_scheduler->touch(&op->file->handle, 0, KZT_GIVES);
}

static void leave_unopened(KzFile *file)
{
    kz_stop_sharing(file);
    kz_count_no_open(file);
}

void kz_cleanup_over(KzFile *file)
{
    file->object.Flags |= FO_CLEANUP_COMPLETE;
    kz_end_notices(file, NULL);
    kz_end_oplocks(file, NULL);
    kz_end_waiting(file, NULL);
    kz_unlock_ranges(file, NULL);
    kz_stop_sharing(file);
    kz_unlock_volume(file);
    kz_cache_cleaned_up(file);
    kz_end_cleanup(file);
}

static void close_handle(KzFile *file)
{
    kz_end_file(file);
    kz_drop_file(file->handle);
}

static void note_end(KzOp *op, KzReply *reply)
{
    bool is_right = reply->status == KZS_OK;
    if (op->event == KZE_CREATE && is_right)
        open_handle(op, reply);
    else if (op->event == KZE_CREATE)
        leave_unopened(op->file);
    else if (op->event == KZE_CLEANUP && is_right)
        kz_cleanup_over(op->file);
    else if (op->event == KZE_CLOSE && is_right)
        close_handle(op->file);
}

/* Of a done operation, which is forgotten. */
KzAnswer kz_collect(KzOp *op)
{
    kz_pause("collect");
    kz_goes_alone(op);
    if (op->event == KZE_CREATE)
        kz_scheduler->uses(&kz.files, KZU_WRITES); /* its handle's number, and what opened the file counts */
    kz_clean_up(); /* a close is over, and with it the contexts of its handle: the caller is told behind that */
    kz_goes_alone(op);
    KazdrinTold told = kz_event_into(kz_worker(), (KazdrinEvent){.event = KZE_COLLECT, .operation = op->id}, kz_me->room, sizeof kz_me->room).told;
    KzAnswer answer = {.reply = {.status = told.status, .information = told.information, .operation = op->id}, .other = op->other, .length = told.length};
    kz_me->has_pended = op->has_pended;
    if (op->served.is_there)
        put_served(op, &answer);
    kz_tell_outcome(op, op->is_answered ? op->answered : answer.other ? answer.other : kz_ntstatus(answer.reply.status));
    if (op->opaque && op->opaque->target)
        kz_close_target(op->own.initiator, op->opaque->target);
    if (op->opaque)
        put_opaque(op, &answer);
    if (kz_is_filled() && !op->own.is_own)
        say_left(op, &answer);
    kz_scheduler->touch(op->file, 0, KZT_GIVES);
    if (op->other == STATUS_REPARSE)
        answer.other = kz_note_reparse(op);
    if (op->is_reopened && !op->is_cancelled)
        answer.reply = (KzReply){.status = KZS_OK, .information = op->own.is_own ? op->file->handle : op->file->number, .operation = op->id, .is_handle = 1};
    else if (op->is_cancelled && (op->is_reopened || answer.reply.status == KZS_OK))
        answer.reply = kz_cancelled(op, &answer.other);
    else
        note_end(op, &answer.reply);
    kz_forget_op(op);
    return answer;
}

static KzAnswer run(const KzBegin *asked);

static void put_answer(KzAnswer answer)
{
    kz_replied(answer.reply, answer.other, kz_me->room, answer.length);
}

/* The close of a file whose handle was closed while operations on it went on; false if none is due. */
static bool close_due(void)
{
    KzFile *file = kz.files;
    while (file && !(file->is_close_due && file->users == 1))
        file = file->next;
    if (!file)
        return false;
    kz_uses_all();
    if (file->is_own) {
        kz_close_if_due(file);
        return true;
    }
    file->is_close_due = false;
    run(&(KzBegin){.event = {.event = KZE_CLOSE, .handle = file->number}, .bytes = ""});
    return true;
}

/* Once more, under another name. */
static KzAnswer begin_create(void *unused, KazdrinEvent asked, const char *path)
{
    (void)unused;
    const KzCreate create = kz_me->reparsed_create;
    return run(&(KzBegin){.event = asked, .bytes = path, .length = strlen(path), .path = path, .create = &create});
}

/* A volume whose dismount was asked for by a code goes once nobody has it open; false if none is due. */
static bool dismount_due(void)
{
    PFLT_VOLUME due = NULL;
    for (size_t at = 0; at < kz.volumes_count; at++)
        due = kz.volumes[at]->is_to_go ? kz.volumes[at] : due;
    for (const KzFile *file = kz.files; due && file; file = file->next)
        if (file->volume == due && file->is_volume && file->has_handle)
            due = NULL;
    if (!due)
        return false;
    kz_uses_all();
    due->is_to_go = false;
    kz_dismount(due);
    return true;
}

/* Of an operation that nobody waits for any more. */
static void tell_end(KzOp *op)
{
    kz_say(KZ_SAID_REPLY, KZ_OPERATION ": ", (unsigned long long)op->id);
    put_answer(kz_follow(kz_collect(op), NULL, begin_create));
}

/* By whoever comes to it. What a filter began, and what waits in the file system, stays with the worker that it has. */
void kz_go_on(KzOp *op)
{
    KzPlace before = kz_me->place;
    bool is_own = op->own.is_own, has_worker = is_own || op->own.has_worker;
    uint8_t worker = op->own.worker;
    if (has_worker)
        kz_me->place.worker = worker;
    bool is_over = kz_carry(op);
    if (!is_own && is_over)
        tell_end(op);
    kz_me->place = before;
    if (is_own && is_over)
        kz_end_below(op);
    else if (has_worker && is_over)
        kz_helped(worker);
}

bool kz_run_resumed(void)
{
    KzOp *op = kz.resumed;
    if (!op)
        return false;
    kz_uses_all();
    kz.resumed = op->next_resumed;
    if (!kz.resumed)
        kz.resumed_end = &kz.resumed;
    kz_go_on(op);
    return true;
}

void kz_uses_closes(void)
{
    kz_scheduler->uses(&kz.files, KZU_READS);
    for (const KzFile *file = kz.files; file; file = file->next)
        if (file->is_close_due)
            kz_scheduler->uses(&file->users, KZU_READS);
}

/* What was let go on, what is due, and what waits for its turn, until nothing of it is left. */
void kz_settle(void)
{
    do {
        while (kz_run_resumed())
            ;
        kz_clean_up();
        if (kz_me->is_detaching)
            kz_uses_closes(); /* other clients settle what they made due */
    } while (kz_run_waiting() || close_due() || dismount_due() || kz_let_others() || kz.resumed);
}

/* The file of a client's handle, whose number isn't the manager's; a driver's own is no client's, nor is one before its create is over. */
static bool find_file(KazdrinEvent *asked, KzFile **file)
{
    bool is_on_volume = asked->event == KZE_CREATE || asked->event == KZE_LIST || asked->event == KZE_ON_VOLUME;
    *file = is_on_volume ? NULL : kz_file_of(asked->handle);
    if (*file)
        asked->handle = (*file)->handle;
    return is_on_volume || *file;
}

/* The name of a create's file, and in the path's place the file's key. */
static KzName *name_of(KzBegin *asked)
{
    PFLT_VOLUME volume = asked->event.event == KZE_CREATE && asked->event.volume < kz.volumes_count ? kz.volumes[asked->event.volume] : NULL;
    KzName *name = volume ? kz_take_any_name(volume, asked->path) : NULL;
    if (name) {
        asked->bytes = name->stream->key;
        asked->length = strlen(name->stream->key);
    }
    return name;
}

static KzFile *new_file(const KzBegin *asked, KzName *name)
{
    bool is_list = asked->event.event != KZE_CREATE;
    PFLT_VOLUME volume = kz.volumes[asked->event.volume];
    bool is_directory = is_list ? !asked->path : kz_opens_directory(asked->create, volume, asked->path);
    KzFile *made = kz_new_file(volume, asked->path ? asked->path : "", is_directory);
    if (is_list && asked->path)
        name = kz_take_name(made->volume, asked->path);
    made->name = name;
    if (!is_list && asked->create->is_volume)
        kz_be_volume(made);
    return made;
}

/* One that is asked to wait in the file system has a worker of its own from its beginning. */
static KzAnswer carry_on(KzOp *op, bool waits)
{
    bool is_over = waits ? kz_carry(op) : kz_carry_to_end(op);
    if (!is_over)
        return (KzAnswer){.reply = {.held = 1, .operation = op->id}};
    return kz_collect(op);
}

static bool is_unaligned(const KzFile *file, const KzBegin *asked)
{
    bool is_write = asked->event.event == KZE_WRITE, is_data = is_write || asked->event.event == KZE_READ;
    uint64_t length = is_write ? asked->length : asked->event.len;
    return is_data && file->object.Flags & FO_NO_INTERMEDIATE_BUFFERING && !kz_is_in_sectors(file, asked->event.offset, length);
}

/* A create takes its name among those of the volume, and each looks whether the file is open still. */
static void note_begun(const KzOp *op)
{
    kz_goes_alone(op);
    if (op->event == KZE_CREATE)
        kz_scheduler->uses(&kz.files, KZU_WRITES);
}

/* Where one request comes after the other, what an oplock is in the way of waits beside the next one, which may acknowledge its break. */
static bool may_wait(const KzBegin *asked)
{
    bool is_apart = asked->event.event != KZE_CLEANUP && asked->event.event != KZE_CLOSE && !kz_has_others() && kz.oplocks;
    return is_apart || (asked->opaque && asked->opaque->waits);
}

/* Begins an operation and carries it on. Refused, it has no reply but the status. */
static KzAnswer begin(const KzBegin *begun)
{
    KzBegin asked = *begun;
    const KzCreate usual = kz_usual_create(kz_disposition_of((uint8_t)asked.event.mode), false);
    KzFile *file;
    if (!find_file(&asked.event, &file))
        return refused(KZS_NO_HANDLE);
    if (file && !kz_is_granted(file, &asked.event, asked.opaque)) /* the system refuses it, before any filter hears of it */
        return refused(KZS_ACCESS_DENIED);
    if (file && asked.event.event == KZE_WRITE)
        asked.event.offset = kz_offset_by(file, (LONGLONG)asked.event.offset);
    if (file && is_unaligned(file, &asked)) /* the system refuses this too */
        return kz_refused(STATUS_INVALID_PARAMETER);
    if (!asked.create)
        asked.create = &usual;
    KzAsked renames;
    NTSTATUS wrong = kz_put_target(NULL, file, &asked.opaque, &renames);
    if (!NT_SUCCESS(wrong))
        return kz_refused(wrong);
    asked.event.kind = kz_is_bypassed(file, &asked.event) ? KZB_BASE : KZB_TOP;
    KzName *name = name_of(&asked);
    KzTold told = kz_event_with(kz_worker(), asked.event, asked.bytes, asked.length);
    if (told.status != KZS_OK) {
        kz_let_go_name(name);
        if (asked.opaque && asked.opaque->target)
            kz_close_target(NULL, asked.opaque->target);
        return refused(told.status);
    }
    if (!file)
        file = new_file(&asked, name);
    KzOp *op = kz_new_op(told.told.operation, asked.event, file, file->volume);
    bool is_data = asked.event.event == KZE_READ || asked.event.event == KZE_WRITE, is_uncached = file->object.Flags & FO_NO_INTERMEDIATE_BUFFERING;
    op->own.irp_flags = asked.irp_flags | (is_data && is_uncached ? IRP_NOCACHE : 0);
    op->own.is_fast = asked.is_fast;
    op->own.worker = kz_worker();
    op->own.has_worker = may_wait(begun);
    if (asked.event.event == KZE_CREATE)
        kz_begin_create(op, asked.create);
    if (asked.opaque)
        kz_begin_opaque(op, asked.opaque);
    note_begun(op);
    return carry_on(op, asked.opaque && asked.opaque->waits);
}

static KzAnswer run(const KzBegin *asked)
{
    if (!may_wait(asked))
        return begin(asked);
    if (!kz_has_helpers())
        return refused(KZS_TOO_MANY);
    KzPlace before = kz_me->place;
    uint8_t worker = kz_helper();
    kz_me->place.worker = worker;
    KzAnswer answer = begin(asked);
    kz_me->place = before;
    if (!answer.reply.held)
        kz_helped(worker);
    return answer;
}

/* Names of a list, as a person reads them. */
static void spell_names(KzAnswer *answer)
{
    char *names = (char *)kz_me->room, *copy = (char *)kz_me->bytes;
    size_t length = answer->length < KZ_BYTES ? answer->length : KZ_BYTES - 1;
    if (!memchr(names, '|', length))
        return;
    memcpy(copy, names, length);
    copy[length] = 0;
    kz_spell(names, sizeof kz_me->room, copy);
    answer->length = answer->reply.information = strlen(names);
}

KzReply kz_perform_as(const KzBegin *asked)
{
    KzAnswer answer = kz_follow(run(asked), NULL, begin_create);
    if (asked->event.event == KZE_LIST && !answer.reply.held)
        spell_names(&answer);
    put_answer(answer);
    kz_settle();
    return answer.reply;
}

/* As in the kit a file that isn't cached has each with an IRP from the first. */
KzReply kz_perform_fast(const KzBegin *asked)
{
    KzBegin one = *asked;
    const KzFile *file = kz_file_of(asked->event.handle);
    one.is_fast = file && !(file->object.Flags & FO_NO_INTERMEDIATE_BUFFERING);
    KzAnswer answer = run(&one);
    if (answer.other == STATUS_FLT_DISALLOW_FAST_IO)
        answer = run(asked);
    put_answer(answer);
    kz_settle();
    return answer.reply;
}

/* A handle that caches has its reads and writes without an IRP first. */
static bool is_cached_by(const KazdrinEvent *asked)
{
    bool is_data = asked->event == KZE_READ || asked->event == KZE_WRITE;
    const KzFile *file = is_data ? kz_file_of(asked->handle) : NULL;
    return file && file->object.PrivateCacheMap;
}

KzReply kz_perform(KazdrinEvent asked, const void *bytes, size_t length, const char *path)
{
    const KzBegin one = {.event = asked, .bytes = bytes, .length = length, .path = path};
    return is_cached_by(&asked) ? kz_perform_fast(&one) : kz_perform_as(&one);
}

/* The system asks for what its generic bits stand for. */
KzReply kz_perform_create(uint8_t volume, const char *path, const KzCreate *create)
{
    KzCreate mapped = *create;
    NTSTATUS wrong = kz_check_create(create);
    if (!NT_SUCCESS(wrong)) {
        KzAnswer answer = {.reply.status = KZS_BAD_REQUEST, .other = wrong};
        put_answer(answer);
        return answer.reply;
    }
    mapped.access = kz_map_access(create->access);
    KazdrinEvent event = {.event = KZE_CREATE, .volume = volume, .mode = kz_mode_of(create->options >> 24)};
    return kz_perform_as(&(KzBegin){.event = event, .bytes = path, .length = strlen(path), .path = path, .create = &mapped});
}

KzReply kz_ask_file(uint64_t handle, const KzAsked *asked)
{
    return kz_perform_as(&(KzBegin){.event = kz_opaque_event(asked, (KazdrinEvent){.event = KZE_OTHER, .handle = handle}), .bytes = "", .opaque = asked});
}

KzReply kz_dispose_file(uint64_t handle, bool is_gone)
{
    const FILE_DISPOSITION_INFORMATION said = {is_gone};
    return kz_ask_file(handle, &(KzAsked){.major = IRP_MJ_SET_INFORMATION, .code = FileDispositionInformation, .input = &said, .input_size = sizeof said, .irp_flags = IRP_BUFFERED_IO});
}

KzReply kz_ask_file_twice(uint64_t handle, const KzAsked *first, const KzAsked *second)
{
    KzBegin asked = {.event = kz_opaque_event(first, (KazdrinEvent){.event = KZE_OTHER, .handle = handle}), .bytes = "", .opaque = first};
    KzAnswer answer = run(&asked);
    asked.opaque = second;
    asked.event = kz_opaque_event(second, asked.event);
    if (!answer.reply.held && answer.reply.status == KZS_OK)
        run(&asked);
    answer.length = 0;
    put_answer(answer);
    kz_settle();
    return answer.reply;
}

/* The file is opened for the query, and closed. */
static KzAnswer query_opened(PFLT_VOLUME volume, const char *path)
{
    const KzAsked query = {.major = IRP_MJ_QUERY_INFORMATION, .code = FileNetworkOpenInformation, .room = sizeof(FILE_NETWORK_OPEN_INFORMATION), .irp_flags = IRP_BUFFERED_IO};
    uint8_t bytes[sizeof(FILE_NETWORK_OPEN_INFORMATION)];
    char says[200];
    KzAnswer opened = kz_follow(run(&(KzBegin){.event = {.event = KZE_CREATE, .volume = volume->id}, .bytes = path, .length = strlen(path), .path = path}), NULL, begin_create);
    if (opened.reply.held || opened.reply.status != KZS_OK)
        return opened;
    uint64_t handle = opened.reply.information;
    KzAnswer answer = run(&(KzBegin){.event = kz_opaque_event(&query, (KazdrinEvent){.event = KZE_OTHER, .handle = handle}), .bytes = "", .opaque = &query});
    memcpy(bytes, kz_me->room, sizeof bytes);
    snprintf(says, sizeof says, "%.199s", kz_me->says);
    run(&(KzBegin){.event = {.event = KZE_CLEANUP, .handle = handle}, .bytes = ""});
    run(&(KzBegin){.event = {.event = KZE_CLOSE, .handle = handle}, .bytes = ""});
    memcpy(kz_me->room, bytes, sizeof bytes);
    strcpy(kz_me->says, says);
    return answer;
}

KzReply kz_open_network(PFLT_VOLUME volume, const char *path)
{
    const KzAsked asked = {.major = IRP_MJ_NETWORK_QUERY_OPEN, .room = sizeof(FILE_NETWORK_OPEN_INFORMATION), .data_flags = FLTFL_CALLBACK_DATA_FAST_IO_OPERATION};
    KzAnswer answer = run(&(KzBegin){.event = kz_opaque_event(&asked, (KazdrinEvent){.event = KZE_ON_VOLUME, .volume = volume->id}), .bytes = "", .path = path, .opaque = &asked});
    if (answer.other == STATUS_FLT_DISALLOW_FAST_IO)
        answer = query_opened(volume, path);
    put_answer(answer);
    kz_settle();
    return answer.reply;
}

KzReply kz_ask_volume(PFLT_VOLUME volume, const KzAsked *asked)
{
    return kz_perform_as(&(KzBegin){.event = kz_opaque_event(asked, (KazdrinEvent){.event = KZE_ON_VOLUME, .volume = volume->id}), .bytes = "", .opaque = asked});
}

/* A cleanup and then the close; the close alone if the cleanup was made before. */
KzReply kz_close_file(uint64_t handle)
{
    KzAnswer answer = run(&(KzBegin){.event = {.event = KZE_CLEANUP, .handle = handle}, .bytes = ""});
    KzReply reply = answer.reply;
    KzFile *file = !reply.held && reply.status == KZS_OK ? kz_file_of(handle) : NULL;
    const KzFile *open = kz_file_of(handle);
    uint8_t refusal = open ? open->refusal : KZS_OK;
    if (file && file->users > 1 && (kz_has_others() || kz_is_referenced(&file->object) || kz_holds_cache(file)))
        kz_uses_all(), file->is_close_due = true; /* as in the kit: whoever ends the last operation of a file object closes it */
    else if (!reply.held && (reply.status == KZS_OK || reply.status == KZS_WRONG_STEP))
        answer = run(&(KzBegin){.event = {.event = KZE_CLOSE, .handle = handle}, .bytes = ""});
    if (!answer.reply.held && answer.reply.status == KZS_OK)
        answer.reply.status = refusal;
    answer.length = 0;
    put_answer(answer);
    kz_settle();
    return answer.reply;
}
