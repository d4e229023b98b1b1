/* Requests in words. */
#include "run/words.h"

#include "cache/paging.h"
#include "core/clock.h"
#include "core/module.h"
#include "core/near.h"
#include "core/process.h"
#include "filesystem/deletion.h"
#include "filesystem/fileobject.h"
#include "filesystem/version.h"
#include "manager/busy.h"
#include "manager/disposition.h"
#include "manager/filter.h"
#include "manager/instance.h"
#include "manager/mount.h"
#include "manager/perform.h"
#include "manager/transaction.h"
#include "kit/cancel.h"
#include "kit/notify.h"
#include "kit/registry.h"
#include "kit/token.h"
#include "user/program.h"
#include "run/events.h"
#include "run/fails.h"
#include "run/majors.h"
#include "run/masks.h"
#include "run/read.h"
#include "run/reply.h"
#include "run/runfile.h"

#include <stdlib.h>
#include <strings.h>

/* ---- Requests. Each answers; `words` has the word that names it first. */
static KzReply said(KzReply reply)
{
    kz_print_reply(reply, STATUS_SUCCESS, NULL, 0);
    return reply;
}

static KzReply outcome(uint32_t status, uint64_t number)
{
    return said((KzReply){.status = status, .information = status == KZS_OK ? number : 0});
}

/* The driver of that name, whatever the case of its letters; else the nearest one is noted. */
static const char *driver_named(const char *name)
{
    KzNear near = kz_near(name);
    const char *found = NULL;
    for (size_t at = 0; at < kz.drivers_count; at++) {
        const char *own = kz.drivers[at].name;
        if (strcmp(own, name) == 0)
            return own;
        found = strcasecmp(own, name) == 0 ? own : found;
        kz_try_near(&near, own);
    }
    kz_note_near(near.best);
    return found ? found : name;
}

static KzReply ask_load(char **words)
{
    uint64_t number = 0;
    NTSTATUS other;
    uint32_t status = kz_load(driver_named(words[1]), words[2] ? words[2] : "", &number, &other);
    KzReply reply = {.status = status, .information = status == KZS_OK ? number : 0};
    kz_note_refused(status);
    kz_print_reply(reply, other, NULL, 0);
    return reply;
}

static bool set_volume(PFLT_VOLUME volume, char **words)
{
    for (; *words; words++)
        if (!kz_set_volume(volume, *words))
            return false;
    return true;
}

/* Filters that are attached by themselves are, once it has its properties. */
static KzReply ask_mount(char **words)
{
    uint64_t number = 0;
    struct _FLT_VOLUME tried;
    kz_new_volume(&tried);
    if (!set_volume(&tried, words + 2))
        return kz_wrong();
    uint32_t status = kz_mount(words[1], &number);
    kz_note_refused(status);
    if (status != KZS_OK)
        return outcome(status, 0);
    set_volume(kz.volumes[number], words + 2);
    for (size_t at = 0; at < kz.filters_count; at++)
        kz_attach_by_itself(kz.filters[at], kz.volumes[number], FLTFL_INSTANCE_SETUP_AUTOMATIC_ATTACHMENT | FLTFL_INSTANCE_SETUP_NEWLY_MOUNTED_VOLUME);
    return outcome(status, number);
}

static KzReply ask_volume(char **words)
{
    uint64_t at;
    if (!kz_read_volume(words[1], &at) || at >= kz.volumes_count || !set_volume(kz.volumes[at], words + 2))
        return kz_wrong();
    if (!kz_is_caching(kz.volumes[at]))
        kz_end_caches(kz.volumes[at]);
    return outcome(KZS_OK, 0);
}

/* What a user's token is beside that: `elevated`, `integrity low`. */
static bool read_token(char **words, bool *is_elevated, ULONG *integrity)
{
    static const char *const levels[] = {"untrusted", "low", "medium", "high", "system"};
    *is_elevated = false;
    for (*integrity = 0; *words; words++) {
        if (strcmp(*words, "elevated") == 0) {
            *is_elevated = true;
            continue;
        }
        if (strcmp(*words, "integrity") != 0 || !*++words)
            return false;
        for (ULONG at = 1; at < sizeof levels / sizeof levels[0]; at++)
            *integrity = strcmp(levels[at], *words) == 0 ? at * SECURITY_MANDATORY_LOW_RID : *integrity;
        if (!*integrity)
            return false;
    }
    return true;
}

/* Who asks from then on: `as process 42`, `as process 42 thread 7`, `as process 42 user S-1-5-18`. */
static KzReply ask_as(char **words)
{
    uint64_t process, thread;
    bool is_elevated = false;
    ULONG integrity = 0;
    bool has_thread = words[3] && strcmp(words[3], "thread") == 0, has_user = words[3] && strcmp(words[3], "user") == 0;
    if (strcmp(words[1], "process") != 0 || !kz_read_number(words[2], UINT32_MAX, &process) || (words[3] && (!words[4] || !(has_thread || has_user))))
        return kz_wrong();
    if (words[3] && words[4] && words[5] && (!has_user || !read_token(words + 5, &is_elevated, &integrity)))
        return kz_wrong();
    if ((has_user && !kz_is_sid(words[4])) || !kz_read_number(has_thread ? words[4] : "0", UINT32_MAX, &thread))
        return kz_wrong();
    kz_me->process = process;
    kz_me->thread = has_thread ? thread : process + 4;
    kz_thread_object(kz_me->process, kz_me->thread);
    if (has_user)
        kz_set_user(process, words[4], is_elevated, integrity);
    return outcome(KZS_OK, 0);
}

/* `process start P PARENT IMAGE`, `process end P`. */
static KzReply ask_process(char **words)
{
    uint64_t id, parent;
    NTSTATUS other = STATUS_SUCCESS;
    bool is_start = strcmp(words[1], "start") == 0;
    if ((!is_start && strcmp(words[1], "end") != 0) || !kz_read_number(words[2], UINT32_MAX, &id) || (words[3] != NULL) != is_start)
        return kz_wrong();
    if (is_start && (!words[4] || !kz_read_number(words[3], UINT32_MAX, &parent)))
        return kz_wrong();
    uint32_t status = is_start ? kz_begin_process(id, parent, words[4], &other) : kz_end_process(id);
    KzReply reply = {.status = status};
    kz_print_reply(reply, other, NULL, 0);
    kz_settle();
    return reply;
}

static KzReply ask_time(char **words)
{
    uint64_t milliseconds;
    if (!kz_read_number(words[1], (uint64_t)1 << 40, &milliseconds))
        return kz_wrong();
    kz_pass(milliseconds);
    kz_settle();
    return outcome(KZS_OK, 0);
}

/* The lazy writer's turn. */
static KzReply ask_lazy(char **words)
{
    (void)words;
    kz_write_lazily(true);
    kz_settle();
    return outcome(KZS_OK, 0);
}

/* A program of the test's own begins, and goes on until it waits. */
static KzReply ask_start(char **words)
{
    uint64_t process = 0;
    NTSTATUS other = STATUS_SUCCESS;
    uint32_t status = kz_start_program(words[1], words + 2, &process, &other);
    kz_note_refused(status);
    KzReply reply = {.status = status, .information = status == KZS_OK ? process : 0};
    kz_print_reply(reply, other, NULL, 0);
    kz_settle();
    return reply;
}

static KzReply ask_type(char **words)
{
    KzReply reply = outcome(kz_type(words[1], words + 2), 0);
    kz_settle();
    return reply;
}

/* A held operation, by its number; `held` is the first one. */
static KzReply ask_cancel(char **words)
{
    uint64_t number = 0;
    bool is_first = strcmp(words[1], "held") == 0;
    if (!is_first && !kz_read_number(words[1], UINT64_MAX, &number))
        return kz_wrong();
    KzReply reply = outcome(kz_cancel(is_first, number), 0);
    kz_settle();
    return reply;
}

static KzReply ask_registry(char **words)
{
    if (words[2])
        return kz_ask_key(words);
    return kz_read_registry(words[1]) ? outcome(KZS_OK, 0) : kz_wrong();
}

/* The Nth call of a kind from here on fails: `fail device 3`. */
static KzReply ask_fail(char **words)
{
    return kz_fail(words) ? outcome(KZS_OK, 0) : kz_wrong();
}

static KzReply ask_attach(char **words)
{
    uint64_t filter, volume, number = 0;
    if (!kz_read_filter(words[1], &filter) || !kz_read_volume(words[2], &volume))
        return kz_wrong();
    if (words[5] && (strcmp(words[4], "as") != 0 || !kz_is_name(words[5])))
        return kz_wrong();
    const char *altitude = words[5] ? words[3] : words[4], *name = words[5] ? words[5] : words[3];
    kz_note_refused(KZS_NO_FILTER); /* until it is attached */
    if (filter >= kz.filters_count)
        return outcome(KZS_NO_FILTER, 0);
    if (volume >= kz.volumes_count)
        return outcome(KZS_NO_VOLUME, 0);
    NTSTATUS other;
    uint32_t status = kz_attach(kz.filters[filter], kz.volumes[volume], name, altitude, FLTFL_INSTANCE_SETUP_MANUAL_ATTACHMENT, &number, &other);
    kz_note_refused(status);
    KzReply reply = {.status = status, .information = status == KZS_OK ? number : 0};
    kz_print_reply(reply, other, NULL, 0);
    return reply;
}

/* A detach, an unload or a dismount: one that is refused says what is in its way, and how many. */
static KzReply ended(uint32_t status)
{
    char text[512];
    if (status == KZS_BUSY)
        kz_say(KZ_SAID_ELSE, "in the way: %s\n", kz_busy_text(text, sizeof text));
    return said((KzReply){.status = status, .information = status == KZS_BUSY ? kz_me->busy_number : 0});
}

static KzReply ask_detach(char **words)
{
    uint64_t at;
    if (!kz_read_instance(words[1], &at))
        return kz_wrong();
    return ended(at < kz.instances_count ? kz_detach_alone(kz.instances[at]) : KZS_NO_INSTANCE);
}

static KzReply ask_unload(char **words)
{
    uint64_t at;
    if (!kz_read_filter(words[1], &at))
        return kz_wrong();
    return ended(at < kz.filters_count ? kz_unload(kz.filters[at]) : KZS_NO_FILTER);
}

static KzReply ask_dismount(char **words)
{
    uint64_t at;
    if (!kz_read_volume(words[1], &at))
        return kz_wrong();
    return ended(at < kz.volumes_count ? kz_dismount(kz.volumes[at]) : KZS_NO_VOLUME);
}

KzReply kz_ask_create(uint8_t volume, const char *path, const KzCreate *create, const char *name)
{
    kz_me->next_name = name;
    KzReply reply = kz_perform_create(volume, path, create);
    kz_me->next_name = NULL;
    if (name && !reply.status && !reply.held)
        kz_name_handle(name, reply.information);
    return reply;
}

/* `create V MODE PATH [as NAME] [access A] [share N] [options O] [attributes N]` */
static KzReply ask_create(char **words)
{
    uint64_t volume;
    ULONG disposition;
    const char *name;
    if (!kz_read_volume(words[1], &volume) || !kz_read_mode(words[2], &disposition))
        return kz_wrong();
    KzCreate create = kz_usual_create(disposition, false);
    if (!kz_read_create(words + 4, &create, &name))
        return kz_wrong();
    return kz_ask_create((uint8_t)volume, words[3], &create, name);
}

/* `transaction begin T`, `transaction commit T`, `transaction rollback T` */
static KzReply ask_transaction(char **words)
{
    bool begins = strcmp(words[1], "begin") == 0, commits = strcmp(words[1], "commit") == 0;
    PKTRANSACTION one = begins ? kz_begin_transaction(words[2]) : kz_transaction_named(words[2]);
    if (!begins && !commits && strcmp(words[1], "rollback") != 0)
        kz_refuse_word("`%.40s` is none of begin, commit, rollback", words[1]);
    else if (!one)
        kz_refuse_word(begins ? "%.40s is a transaction already, or no name" : "no transaction is named %.40s", words[2]);
    if (!one || (!begins && !commits && strcmp(words[1], "rollback") != 0))
        return kz_wrong();
    NTSTATUS other = begins ? STATUS_SUCCESS : kz_end_transaction(one, commits);
    KzReply reply = {.status = NT_SUCCESS(other) ? KZS_OK : KZS_DEVICE_FAULT};
    kz_replied(reply, other, NULL, 0);
    kz_settle();
    return reply;
}

static KzReply ask_list(char **words)
{
    uint64_t volume;
    if (!kz_read_volume(words[1], &volume))
        return kz_wrong();
    return kz_perform((KazdrinEvent){.event = KZE_LIST, .volume = (uint8_t)volume}, "", 0, NULL);
}

static KzReply ask_read(char **words)
{
    uint64_t handle, offset, length;
    if (!kz_read_handle(words[1], &handle) || !kz_read_number(words[2], UINT64_MAX, &offset) || !kz_read_number(words[3], KZ_BYTES + 1, &length))
        return kz_wrong();
    return kz_perform((KazdrinEvent){.event = KZE_READ, .handle = handle, .offset = offset, .len = (uint32_t)length}, "", 0, NULL);
}

static KzReply ask_write(char **words)
{
    uint8_t *bytes = kz_me->bytes;
    uint64_t handle, offset;
    size_t length;
    if (!kz_read_handle(words[1], &handle) || !kz_read_place(words[2], &offset) || !kz_read_hex(words[3], bytes, &length))
        return kz_wrong();
    return kz_perform((KazdrinEvent){.event = KZE_WRITE, .handle = handle, .offset = offset}, bytes, length, NULL);
}

static KzReply ask_set_size(char **words)
{
    uint64_t handle, size;
    if (!kz_read_handle(words[1], &handle) || !kz_read_number(words[2], UINT64_MAX, &size))
        return kz_wrong();
    return kz_perform((KazdrinEvent){.event = KZE_SET_SIZE, .handle = handle, .offset = size}, "", 0, NULL);
}

static KzReply on_handle(char **words, uint32_t event)
{
    uint64_t handle;
    if (!kz_read_handle(words[1], &handle))
        return kz_wrong();
    return kz_perform((KazdrinEvent){.event = event, .handle = handle}, "", 0, NULL);
}

static KzReply ask_query_size(char **words)
{
    return on_handle(words, KZE_QUERY_SIZE);
}

static KzReply ask_flush(char **words)
{
    return on_handle(words, KZE_FLUSH);
}

static KzReply ask_set_delete(char **words)
{
    uint64_t handle;
    return kz_read_handle(words[1], &handle) ? kz_dispose_file(handle, true) : kz_wrong();
}

static KzReply ask_restore(char **words)
{
    uint64_t handle;
    return kz_read_handle(words[1], &handle) ? kz_dispose_file(handle, false) : kz_wrong();
}

static KzReply ask_close(char **words)
{
    uint64_t handle;
    return kz_read_handle(words[1], &handle) ? kz_close_file(handle) : kz_wrong();
}

/* Each with its name, how many words it has at least and at most, and whether the first behind it is a handle. */
static const KzRequest requests[] = {
    {"load", 2, 3, ask_load, false},           {"mount", 2, 7, ask_mount, false},         {"volume", 3, 8, ask_volume, false},
    {"attach", 5, 6, ask_attach, false},       {"detach", 2, 2, ask_detach, false},       {"unload", 2, 2, ask_unload, false},
    {"dismount", 2, 2, ask_dismount, false},   {"create", 4, 16, ask_create, false},       {"list", 2, 2, ask_list, false},
    {"read", 4, 4, ask_read, true},            {"write", 4, 4, ask_write, true},          {"setsize", 3, 3, ask_set_size, true},
    {"querysize", 2, 2, ask_query_size, true}, {"flush", 2, 2, ask_flush, true},          {"setdelete", 2, 2, ask_set_delete, true},
    {"close", 2, 2, ask_close, true},          {"as", 3, 8, ask_as, false},               {"time", 2, 2, ask_time, false},
    {"registry", 2, 5, ask_registry, false},   {"fail", 3, 3, ask_fail, false},           {"start", 2, KZ_WORDS, ask_start, false},
    {"type", 3, KZ_WORDS, ask_type, false},    {"cancel", 2, 2, ask_cancel, false},       {"process", 3, 5, ask_process, false},
    {"thread", 3, 5, kz_ask_thread, false},    {"image", 4, 4, kz_ask_image, false},      {"open", 4, 6, kz_ask_open, false},
    {"restore", 2, 2, ask_restore, true},      {"lazy", 1, 1, ask_lazy, false},           {"transaction", 3, 3, ask_transaction, false},
};

const KzRequest *kz_request_at(size_t at)
{
    size_t count = sizeof requests / sizeof requests[0];
    if (at < count)
        return &requests[at];
    const KzRequest *one = kz_major_requests;
    while (one->name && at-- > count)
        one++;
    return one->name ? one : NULL;
}

const KzRequest *kz_request_of(const char *word)
{
    size_t at = 0;
    const KzRequest *one;
    while ((one = kz_request_at(at)) && strcmp(one->name, word) != 0)
        at++;
    return one;
}
