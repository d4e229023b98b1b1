/* The host is one thread's, and so is all of this. */
#include "answer.h"

#include "cache/paging.h"
#include "core/client.h"
#include "core/clock.h"
#include "core/memory.h"
#include "core/spell.h"
#include "core/state.h"
#include "filesystem/disk.h"
#include "filesystem/fileobject.h"
#include "lib/letters.h"
#include "manager/disposition.h"
#include "manager/filter.h"
#include "manager/instance.h"
#include "manager/mount.h"
#include "manager/perform.h"
#include "run/sink.h"

#include <string.h>

static Link *all;
static size_t all_count;
static Link *asking; /* whose own reply comes next */
static bool is_closed[8]; /* the volume: a dismount was asked for, and no operation begins on it */
static unsigned long long requests;
static Link leftovers; /* handles of clients that are gone, which couldn't be closed yet */

/* Who waits for that operation: nobody, where its client is gone. */
static Link *waiting_for(uint64_t operation)
{
    size_t at = 0;
    while (at < all_count && !(all[at].socket != -1 && all[at].is_waiting && all[at].operation == operation))
        at++;
    return at < all_count ? &all[at] : NULL;
}

static bool is_ascii(const uint8_t *bytes, size_t length)
{
    size_t at = 0;
    while (at < length && bytes[at] < 0x80)
        at++;
    return at == length;
}

/* A name of UTF-8 as a frame has it, with the letters that Windows has in no name. */
static size_t put_name(char *room, size_t size, const uint8_t *name, size_t length)
{
    char text[4 * LONGEST_PATH], letters[5 * sizeof text];
    snprintf(text, sizeof text, "%.*s", (int)length, (const char *)name);
    if (!kz_unspell(letters, sizeof letters, text))
        return 0;
    kz_spell_outside(room, size, letters);
    return strlen(room);
}

/* The names of a list as a frame has them. */
static size_t put_names(uint8_t *room, const uint8_t *bytes, size_t length)
{
    char name[4 * LONGEST_PATH];
    size_t used = 0;
    for (size_t from = 0, count; from < length; from += count) {
        const uint8_t *end = memchr(bytes + from, '\n', length - from);
        count = end ? (size_t)(end - bytes) + 1 - from : length - from;
        size_t put = put_name(name, sizeof name, bytes + from, count);
        memcpy(room + used, name, put);
        used += put;
    }
    return used;
}

/* What comes of a step of a Look: the next one is due, or the reply is there. */
static void go_on_looking(Link *link, KzReply reply)
{
    uint8_t bytes[LOOKED_BYTES];
    bool is_open = link->step != LOOK_OPENS || reply.status == KZS_OK;
    link->is_step_due = is_open && link->step != LOOK_CLOSES;
    if (link->step == LOOK_OPENS && is_open) {
        link->handle = reply.information;
        link_add(link, link->handle);
    }
    if (link->step != LOOK_CLOSES) {
        link->status = (uint8_t)reply.status;
        link->size = reply.information;
    }
    if (link->is_step_due) {
        link->step++;
        return;
    }
    if (is_open && reply.status == KZS_OK)
        link_forget(link, link->handle);
    if (link->status == KZS_OK)
        link_reply(link, KZS_OK, link->size, bytes, looked_put(bytes, &link->looked));
    else
        link_reply(link, link->status, 0, NULL, 0);
}

static void finish(Link *link, KzReply reply, const uint8_t *bytes, size_t length)
{
    uint8_t names[KZ_BYTES];
    if (link->code == FRAME_LOOK) {
        go_on_looking(link, reply);
        return;
    }
    if (link->code == FRAME_LIST && length <= sizeof names && !is_ascii(bytes, length)) {
        length = reply.information = put_names(names, bytes, length);
        bytes = names;
    }
    if (link->code == FRAME_CREATE && reply.status == KZS_OK)
        link_add(link, reply.information);
    if (link->code == FRAME_CLOSE && reply.status == KZS_OK)
        link_forget(link, link->handle);
    link_reply(link, (uint8_t)reply.status, reply.information, bytes, length);
}

static bool is_cleanup(const Link *link)
{
    return link->code == FRAME_CLOSE || (link->code == FRAME_LOOK && link->step == LOOK_CLOSES);
}

/* A request's own reply comes first, and then those of operations that it let go. */
static void take_reply(KzReply reply, const uint8_t *bytes, size_t length)
{
    Link *link = asking ? asking : waiting_for(reply.operation);
    asking = NULL;
    if (!link)
        return;
    if (reply.held) {
        link->is_waiting = true;
        link->operation = reply.operation;
    } else if (link->is_waiting && is_cleanup(link)) {
        link->is_waiting = false;
        link->is_step_due = true;
    } else {
        link->is_waiting = false;
        finish(link, reply, bytes, length);
    }
}

void answer_begin(Link *links, size_t count)
{
    all = links;
    all_count = count;
    for (size_t at = 0; at < kz.volumes_count; at++)
        kz.volumes[at]->makes_folders = true; /* as frames have it: the folder itself says what it lacks */
    kz_set_sink(take_reply);
}

/* A path of a frame, as the host has it. */
typedef struct {
    char text[5 * LONGEST_WIDE_PATH + 1];
} Path;

static bool take_path(const Frame *frame, Path *path)
{
    char text[LONGEST_WIDE_PATH + 1] = "";
    memcpy(text, frame->text, frame->text_length);
    return kz_unspell_outside(path->text, sizeof path->text, text) && strlen(path->text) < KZ_PATH;
}

static void create(Link *link, const Frame *frame, const Path *path)
{
    KzCreate asked = kz_usual_create(kz_disposition_of(frame->mode), false);
    if (frame->mode == CREATE_NEW)
        asked.options &= ~FILE_NON_DIRECTORY_FILE; /* a folder of that name is in the way as a file is */
    asking = link;
    kz_perform_create(frame->volume, path->text, &asked);
}

/* To the name from the volume's root, as MoveFileEx has it: what has that name goes, also while it is open. */
static void rename_file(const Frame *frame, const Path *path)
{
    struct {
        FILE_RENAME_INFORMATION head;
        WCHAR rest[2 * LONGEST_WIDE_PATH];
    } said = {.head.Flags = FILE_RENAME_POSIX_SEMANTICS | (frame->mode ? FILE_RENAME_REPLACE_IF_EXISTS : 0)};
    char whole[sizeof *path + 60];
    snprintf(whole, sizeof whole, "/Device/%s/%s", kz_file_of(frame->handle)->volume->name, path->text);
    said.head.FileNameLength = kz_widen(said.head.FileName, whole);
    kz_ask_file(frame->handle, &(KzAsked){.major = IRP_MJ_SET_INFORMATION,
                                          .code = FileRenameInformationEx,
                                          .input = &said,
                                          .input_size = sizeof said.head + said.head.FileNameLength,
                                          .irp_flags = IRP_BUFFERED_IO});
}

static void close_handle(Link *link)
{
    asking = link;
    kz_close_file(link->handle);
}

/* A folder is told without being opened: filters see paths, and none of these. */
static void look(Link *link, const Frame *frame, const Path *path)
{
    KzFound found = {0};
    kz_look_in_folder(frame->volume, path->text, &found);
    link->looked = (Looked){found.is_directory ? LOOKED_AT_FOLDER : LOOKED_AT_FILE, found.mode, found.read_at, found.written_at};
    link->step = LOOK_OPENS;
    link->status = KZS_OK;
    link->size = 0;
    uint8_t bytes[LOOKED_BYTES];
    if (found.is_directory)
        link_reply(link, KZS_OK, 0, bytes, looked_put(bytes, &link->looked));
    else
        create(link, frame, path); /* its mode is that of what exists */
}

/* The operation that a frame asks for, as an event. */
static KazdrinEvent event_of(const Frame *frame)
{
    static const uint8_t events[] = {
        [FRAME_READ] = KZE_READ,         [FRAME_WRITE] = KZE_WRITE, [FRAME_QUERY_SIZE] = KZE_QUERY_SIZE, [FRAME_SET_SIZE] = KZE_SET_SIZE,
        [FRAME_FLUSH] = KZE_FLUSH,       [FRAME_LIST] = KZE_LIST,
    };
    uint64_t offset = frame->offset - (frame->offset == UINT64_MAX); /* no frame says that it is at the end of the file: it is refused */
    return (KazdrinEvent){.event = events[frame->code], .volume = frame->volume, .handle = frame->handle, .offset = offset, .len = frame->length};
}

static bool is_of_handle(uint8_t code)
{
    return code != FRAME_CREATE && code != FRAME_LIST && code != FRAME_LOOK;
}

/* As fltd has it: a handle of another, a volume that isn't there, one that is going. There is one volume for all handles. */
static uint8_t refusal(const Link *link, const Frame *frame)
{
    if (is_of_handle(frame->code) && !link_has(link, frame->handle))
        return KZS_NO_HANDLE;
    if (frame->volume >= kz.volumes_count)
        return KZS_NO_VOLUME;
    return is_closed[frame->volume] ? KZS_DISMOUNTING : KZS_OK;
}

static bool has_path(uint8_t code)
{
    return code == FRAME_CREATE || code == FRAME_LOOK || code == FRAME_RENAME;
}

static void perform(Link *link, const Frame *frame, const Path *path)
{
    switch (frame->code) {
    case FRAME_CREATE:
        create(link, frame, path);
        break;
    case FRAME_LOOK:
        look(link, frame, path);
        break;
    case FRAME_RENAME:
        asking = link;
        rename_file(frame, path);
        break;
    case FRAME_CLOSE:
        close_handle(link);
        break;
    case FRAME_SET_DELETE:
    case FRAME_RESTORE:
        asking = link;
        kz_dispose_file(frame->handle, frame->code == FRAME_SET_DELETE);
        break;
    default:
        asking = link;
        kz_perform(event_of(frame), frame->code == FRAME_WRITE ? frame->text : (const uint8_t *)"", frame->text_length, NULL);
    }
}

static void operate(Link *link, const Frame *frame)
{
    Path path;
    uint8_t status = has_path(frame->code) && !take_path(frame, &path) ? KZS_BAD_PATH : refusal(link, frame);
    link->handle = frame->handle;
    if (status != KZS_OK)
        link_reply(link, status, 0, NULL, 0);
    else
        perform(link, frame, &path);
}

static void copy_text(char *room, const uint8_t *text, size_t length)
{
    memcpy(room, text, length);
    room[length] = '\0';
}

static uint32_t load(const Frame *frame, uint64_t *number)
{
    char name[33];
    NTSTATUS other;
    copy_text(name, frame->text, frame->text_length);
    return kz_load(name, "", number, &other);
}

static uint32_t attach(const Frame *frame, uint64_t *number)
{
    char name[33], altitude[65];
    NTSTATUS said;
    copy_text(name, frame->text, frame->text_length);
    copy_text(altitude, frame->altitude, frame->altitude_length);
    if (frame->filter >= kz.filters_count)
        return KZS_NO_FILTER;
    if (frame->volume >= kz.volumes_count)
        return KZS_NO_VOLUME;
    return kz_attach(kz.filters[frame->filter], kz.volumes[frame->volume], name, altitude, FLTFL_INSTANCE_SETUP_MANUAL_ATTACHMENT, number, &said);
}

static bool is_anybody_waiting(void)
{
    size_t at = 0;
    while (at < all_count && !(all[at].socket != -1 && (all[at].is_waiting || all[at].is_step_due)))
        at++;
    return at < all_count;
}

/* As fltd has it: the volume is closed for good, also where an operation is there still. That is 34, with no number of the manager's. */
static uint32_t dismount(uint8_t volume)
{
    KazdrinTold told = {0};
    is_closed[volume] = true;
    if (kazdrin_phase(&kz.manager, &(KazdrinEvent){.mode = KZP_OF_VOLUME, .volume = volume}, &told) == KZS_OK && told.has && told.number == KZP_VOLUME_FINISHED)
        return KZS_DISMOUNTING;
    return is_anybody_waiting() ? KZS_BUSY : kz_dismount(kz.volumes[volume]);
}

static uint32_t control(const Frame *frame, uint64_t *number)
{
    switch (frame->code) {
    case FRAME_LOAD:
        return load(frame, number);
    case FRAME_ATTACH:
        return attach(frame, number);
    case FRAME_DETACH:
        return frame->instance < kz.instances_count ? kz_detach(kz.instances[frame->instance]) : KZS_NO_INSTANCE;
    case FRAME_UNLOAD:
        return frame->filter < kz.filters_count ? kz_unload(kz.filters[frame->filter]) : KZS_NO_FILTER;
    case FRAME_DISMOUNT:
        return frame->volume < kz.volumes_count ? dismount(frame->volume) : KZS_NO_VOLUME;
    default:
        return KZS_OK;
    }
}

/* A reply of 34 says how many are in the way. */
static void manage(Link *link, const Frame *frame)
{
    uint64_t number = 0;
    kz_forget_busy();
    uint32_t status = control(frame, &number);
    uint64_t information = status == KZS_BUSY ? kz_me->busy_number : status == KZS_OK ? number : 0;
    link_reply(link, (uint8_t)status, information, NULL, 0);
}

/* Each request needs both blocks that are kept back. One that gives memory back needs one of them, and a Stop none. */
static bool has_memory(uint8_t code)
{
    bool gives_back = code == FRAME_CLOSE || code == FRAME_DETACH || code == FRAME_UNLOAD || code == FRAME_DISMOUNT;
    return code == FRAME_STOP || kz_keep_back() >= (gives_back ? 1 : 2);
}

bool answer_frame(Link *link, const uint8_t *body, size_t length)
{
    Frame frame;
    uint8_t status = frame_read(body, length, &frame);
    KZ_CALL_OF(kz_a_request);
    link->code = frame.code;
    link->number = frame.number;
    requests++;
    kz_tick();
    if (status == KZS_OK && !has_memory(frame.code))
        status = KZS_NO_MEMORY;
    if (status != KZS_OK)
        link_reply(link, status, 0, NULL, 0);
    else if (frame.code < FRAME_LOAD)
        operate(link, &frame);
    else
        manage(link, &frame);
    return status == KZS_OK && frame.code == FRAME_STOP;
}

static void make_step(Link *link)
{
    link->is_step_due = false;
    asking = link;
    if (is_cleanup(link))
        kz_close_file(link->handle);
    else
        kz_perform((KazdrinEvent){.event = KZE_QUERY_SIZE, .handle = link->handle}, "", 0, NULL);
}

void answer_due_steps(void)
{
    KZ_CALL_OF(kz_a_request);
    for (size_t at = 0; at < all_count; at++)
        while (all[at].socket != -1 && all[at].is_step_due)
            make_step(&all[at]);
}

void answer_tell_counts(void)
{
    size_t connections = 0, held = 0, handles = 0;
    for (size_t at = 0; at < all_count; at++)
        if (all[at].socket != -1) {
            connections++;
            held += all[at].is_waiting;
            handles += all[at].handles_count;
        }
    KzCounts counts = kz_counts();
    printf("requests %llu connections %zu held %zu handles %zu born %llu cleaned %llu\n", requests, connections, held, handles, (unsigned long long)counts.born, (unsigned long long)counts.cleaned);
}

void answer_lazily(void)
{
    KZ_CALL_OF("the lazy writer");
    kz_write_lazily(true);
    kz_settle();
}

/* A handle that is there no more is closed, too. */
static bool was_closed(KzReply reply)
{
    return !reply.held && (reply.status == KZS_OK || reply.status == KZS_NO_HANDLE || reply.status == KZS_DISMOUNTING);
}

/* Each handle is tried once, as long as there is memory. */
static void close_all(Link *link)
{
    KZ_CALL_OF("closes");
    for (size_t left = link->handles_count; left > 0 && has_memory(FRAME_CLOSE); left--) {
        uint64_t handle = link->handles[left - 1];
        if (was_closed(kz_close_file(handle)))
            link_forget(link, handle);
    }
}

void answer_end(Link *link)
{
    link->is_waiting = link->is_step_due = false;
    close_all(link);
    for (size_t at = 0; at < link->handles_count; at++)
        link_add(&leftovers, link->handles[at]);
    link->handles_count = 0;
    answer_leftovers();
}

void answer_leftovers(void)
{
    close_all(&leftovers);
}
