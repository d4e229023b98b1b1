/* Who waits for a change in a directory. A handle's first wait says what it hears of, and how much of it is kept from then on between two waits. */
#include "filesystem/notice.h"

#include "core/client.h"
#include "core/memory.h"
#include "core/module.h"
#include "core/op.h"
#include "lib/letters.h"
#include "filesystem/name.h"
#include "filesystem/oplocks.h"
#include "filesystem/tree.h"
#include "filesystem/waiting.h"

#include <stdlib.h>

/* What a handle hears of, and what it wasn't told yet: a chain of entries, or that there were too many. */
typedef struct Watch {
    struct Watch *next;
    const KzFile *file;
    ULONG filter;
    bool is_tree, is_overflown;
    uint8_t *entries;
    size_t length, last, room;
} Watch;

struct KzNoticeState {
    Watch *watches;
};

static Watch **watch_of(const KzFile *file)
{
    Watch **at = &kz.notice->watches;
    while (*at && (*at)->file != file)
        at = &(*at)->next;
    return at;
}

/* What is kept is the operation's, if it has room for that. */
static NTSTATUS give(Watch *watch, KzOp *op)
{
    const FLT_PARAMETERS *now = &op->opaque->now;
    bool fits = !watch->is_overflown && watch->length <= now->DirectoryControl.NotifyDirectory.Length;
    op->opaque->information = fits ? watch->length : 0;
    if (fits)
        memcpy(now->DirectoryControl.NotifyDirectory.DirectoryBuffer, watch->entries, watch->length);
    watch->length = watch->last = 0;
    watch->is_overflown = false;
    return fits ? STATUS_SUCCESS : STATUS_NOTIFY_ENUM_DIR;
}

static Watch *begin_watch(const KzOp *op)
{
    const FLT_PARAMETERS *now = &op->opaque->now;
    Watch *made = kz_memory(sizeof *made);
    *made = (Watch){.next = kz.notice->watches, .file = op->file, .filter = now->DirectoryControl.NotifyDirectory.CompletionFilter, .is_tree = op->opaque->operation_flags & SL_WATCH_TREE};
    made->room = now->DirectoryControl.NotifyDirectory.Length;
    made->entries = kz_memory(made->room + 1);
    return kz.notice->watches = made;
}

NTSTATUS kz_wait_for_change(KzOp *op)
{
    Watch *watch = *watch_of(op->file);
    if (!watch)
        watch = begin_watch(op);
    if (watch->length || watch->is_overflown) {
        kz_uses_all();
        return give(watch, op);
    }
    return kz_wait_in_file_system(op);
}

static void keep(Watch *watch, const char *rest, ULONG action)
{
    struct {
        ULONG next, action, length;
        WCHAR name[KZ_PATH];
    } change = {.action = action};
    change.length = kz_widen(change.name, rest);
    size_t size = offsetof(FILE_NOTIFY_INFORMATION, FileName) + change.length, place = (watch->length + 3) & ~(size_t)3;
    kz_uses_all();
    watch->is_overflown |= place + size > watch->room;
    if (watch->is_overflown)
        return;
    memset(watch->entries + watch->length, 0, place - watch->length);
    memcpy(watch->entries + place, &change, size);
    ULONG behind = (ULONG)(place - watch->last);
    if (place)
        memcpy(watch->entries + watch->last, &behind, sizeof behind);
    watch->last = place;
    watch->length = place + size;
}

/* Whoever waits first by that handle hears of it. An old name is told with the new one. */
static void tell(Watch *watch, const char *rest, ULONG action)
{
    keep(watch, rest, action);
    if (action == FILE_ACTION_RENAMED_OLD_NAME)
        return;
    KzOp *op = kz_first_waiting(watch->file);
    if (op)
        kz_make_due(op, give(watch, op));
}

/* Of a stream there are filters and actions of its own. */
static ULONG filter_of_stream(ULONG filter)
{
    static const ULONG all[][2] = {{FILE_NOTIFY_CHANGE_FILE_NAME, FILE_NOTIFY_CHANGE_STREAM_NAME}, {FILE_NOTIFY_CHANGE_SIZE, FILE_NOTIFY_CHANGE_STREAM_SIZE}, {FILE_NOTIFY_CHANGE_LAST_WRITE, FILE_NOTIFY_CHANGE_STREAM_WRITE}};
    ULONG own = 0;
    for (size_t at = 0; at < sizeof all / sizeof all[0]; at++)
        own |= filter & all[at][0] ? all[at][1] : 0;
    return own;
}

static ULONG action_of_stream(ULONG action)
{
    bool is_new = action == FILE_ACTION_ADDED || action == FILE_ACTION_RENAMED_NEW_NAME;
    return is_new ? FILE_ACTION_ADDED_STREAM : action == FILE_ACTION_MODIFIED ? FILE_ACTION_MODIFIED_STREAM : FILE_ACTION_REMOVED_STREAM;
}

void kz_notify(const KzName *name, ULONG filter, ULONG action)
{
    if (filter & (FILE_NOTIFY_CHANGE_FILE_NAME | FILE_NOTIFY_CHANGE_DIR_NAME))
        kz_folder_changed(name);
    filter = name->base ? filter_of_stream(filter) : filter;
    action = name->base ? action_of_stream(action) : action;
    for (Watch *one = kz.notice->watches; one; one = one->next) {
        const char *directory = kz_name_now(one->file);
        if (!kz_is_below(name, one->file->volume, directory) || !(one->filter & filter))
            continue;
        const char *rest = name->text + (*directory ? strlen(directory) + 1 : 0);
        if (!strchr(rest, '/') || one->is_tree)
            tell(one, rest, action);
    }
}

static void end_watch(Watch **at)
{
    Watch *gone = *at;
    *at = gone->next;
    free(gone->entries);
    free(gone);
}

void kz_end_notices(const KzFile *file, PFLT_VOLUME volume)
{
    for (Watch **at = &kz.notice->watches; *at;)
        if (file ? (*at)->file == file : (*at)->file->volume == volume)
            end_watch(at);
        else
            at = &(*at)->next;
}

static void free_notices(void)
{
    while (kz.notice->watches)
        end_watch(&kz.notice->watches);
}

const KzModule kz_notice_module = {KZ_STATE(notice), .free = free_notices};
