/* What was seen of the last request: its reply, the callbacks that it called, and what was told. */
#include "run/seen.h"

#include "core/client.h"
#include "core/source.h"
#include "run/report.h"

KzSeen kz_seen;

/* Where clients run beside one another what is expected is of those that go on once all others stand still. */
static bool is_watched(void)
{
    return kz_scheduler == &kz_in_order || kz_me->is_last;
}

unsigned kz_line(void)
{
    return kz_seen.line;
}

unsigned kz_request_line(void)
{
    return kz_seen.request_line;
}

unsigned kz_unmet(void)
{
    return kz_seen.unmet;
}

const char *kz_command(void)
{
    return kz_seen.command;
}

void kz_forget_notes(void)
{
    kz_seen.line = kz_seen.request_line = kz_seen.unmet = kz_seen.expected = kz_seen.looked_for = kz_seen.called = kz_seen.set_up = 0;
    kz_seen.file = NULL;
    kz_seen.told_count = 0;
    kz_seen.command[0] = 0;
    kz_seen.calls_count = 0;
}

void kz_next_line(void)
{
    kz_seen.line++;
}

/* ---- What is seen. */
void kz_note_request(const char *words)
{
    if (!is_watched())
        return;
    snprintf(kz_seen.command, sizeof kz_seen.command, "%.255s", words);
    kz_seen.command[strcspn(kz_seen.command, "\r\n")] = 0;
    kz_seen.request_line = kz_seen.line;
    kz_seen.calls_count = 0;
    kz_seen.reply = (KzReply){0};
    kz_seen.other = STATUS_SUCCESS;
    kz_seen.says[0] = 0;
    kz_seen.told_count = kz_seen.length = 0;
}

const char *kz_callback_word(KzCallback callback)
{
    static const char *const words[] = {"none", "entry", "setup", "pre", "post", "drain", "query", "start", "complete", "unload", "cleanup", "work", "timer", "thread", "port", "cancel", "notify", "completion", "dispatch", "name"};
    return words[callback];
}

static void note_called(KzCallback callback, uint32_t filter)
{
    switch (callback) {
    case KZ_IN_ENTRY:
    case KZ_IN_UNLOAD:
        break;
    case KZ_IN_SETUP:
    case KZ_IN_QUERY:
    case KZ_IN_START:
    case KZ_IN_COMPLETE:
        kz_seen.set_up |= filter;
        break;
    default:
        kz_seen.called |= filter;
    }
}

void kz_note_callback(KzCallback callback, PFLT_FILTER filter)
{
    char members[256], name[128];
    if (!is_watched() || callback == KZ_IN_NOTHING || !filter)
        return;
    if (filter->id < 32)
        note_called(callback, 1U << filter->id);
    if (kz_seen.calls_count < sizeof kz_seen.calls / sizeof kz_seen.calls[0]) {
        kz_seen.calls[kz_seen.calls_count].callback = callback;
        kz_seen.calls[kz_seen.calls_count++].driver = filter->driver->name;
    }
    if (!kz_is_json())
        return;
    kz_json_text(name, sizeof name, filter->driver->name);
    snprintf(members, sizeof members, "\"callback\": \"%s\", \"name\": %s", kz_callback_name(callback), name);
    kz_report_event("Callback", members);
}

const char *kz_callbacks(void)
{
    char *text = kz_seen.callbacks;
    size_t used = 0;
    text[0] = 0;
    for (size_t at = 0; at < kz_seen.calls_count && used < sizeof kz_seen.callbacks; at++)
        used += (size_t)snprintf(text + used, sizeof kz_seen.callbacks - used, "%s%s:%s", used ? " " : "", kz_callback_word(kz_seen.calls[at].callback), kz_seen.calls[at].driver);
    return text;
}

static void note_message(const KzSaid *said, bool is_counted)
{
    if (kz_seen.told_count == sizeof kz_seen.told / sizeof kz_seen.told[0])
        return;
    kz_seen.told[kz_seen.told_count].message = said->message;
    kz_seen.told[kz_seen.told_count].is_counted = is_counted;
    kz_seen.told[kz_seen.told_count++].is_expected = false;
}

void kz_note_told(const KzSaid *said, bool is_counted)
{
    char text[1800], id[16];
    if (!is_watched())
        return;
    note_message(said, is_counted);
    if (!kz_seen.on_told)
        return;
    snprintf(id, sizeof id, "KZ%04d", said->message);
    kz_readable(text, sizeof text, said->text);
    kz_seen.on_told(id, text);
}

void kz_note_again(const KzSaid *said)
{
    if (is_watched())
        note_message(said, true);
}

static void report_reply(void)
{
    char members[5200], text[4800];
    if (kz_seen.reply.held)
        snprintf(members, sizeof members, "\"operation\": \"o%llu\"", (unsigned long long)kz_seen.reply.operation);
    else
        snprintf(members, sizeof members, "\"status\": %u, \"information\": %llu, \"length\": %zu", kz_seen.reply.status, (unsigned long long)kz_seen.reply.information, kz_seen.length);
    size_t used = strlen(members);
    if (*kz_seen.says && !kz_seen.reply.held) {
        kz_json_text(text, sizeof text, kz_seen.says);
        snprintf(members + used, sizeof members - used, ", \"says\": %s", text);
    }
    kz_report_event(kz_seen.reply.held ? "Waits" : "Answered", members);
}

void kz_note_reply(KzReply answer, NTSTATUS status, const uint8_t *from, size_t size, const char *text)
{
    if (!is_watched())
        return;
    kz_seen.reply = answer;
    kz_seen.other = status;
    snprintf(kz_seen.says, sizeof kz_seen.says, "%s", text);
    kz_seen.length = size < sizeof kz_seen.bytes ? size : sizeof kz_seen.bytes;
    if (kz_seen.length)
        memcpy(kz_seen.bytes, from, kz_seen.length);
    if (kz_is_json())
        report_reply();
}

const uint8_t *kz_reply_bytes(size_t *size)
{
    *size = kz_seen.length;
    return kz_seen.bytes;
}

const char *kz_reply_callbacks(void)
{
    return kz_callbacks();
}

void kz_on_told(void (*to)(const char *id, const char *text))
{
    kz_seen.on_told = to;
}
