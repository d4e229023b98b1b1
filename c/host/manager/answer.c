/* The answer of an operation: shown to a postoperation in the kit's structures, and taken as a callback left it. */
#include "manager/answer.h"

#include "cache/cache.h"
#include "core/client.h"
#include "core/op.h"
#include "core/piece.h"
#include "core/state.h"
#include "core/status.h"
#include "core/told.h"
#include "filesystem/query.h"
#include "filesystem/tree.h"
#include "lib/letters.h"
#include "manager/block.h"
#include "manager/buffer.h"
#include "manager/opaque.h"
#include "manager/data.h"

static size_t least(size_t a, size_t b)
{
    return a < b ? a : b;
}

/* ---- The answer. A listing is the kit's chain of names, and the manager's names, each before a line's end. */
static size_t entry_size(size_t letters)
{
    return (offsetof(FILE_NAMES_INFORMATION, FileName) + letters * sizeof(WCHAR) + 7) & ~(size_t)7;
}

/* How many bytes of a chain fit in a buffer. */
static size_t show_names(const uint8_t *names, size_t length, uint8_t *chain, size_t room)
{
    size_t place = 0, start = 0;
    PFILE_NAMES_INFORMATION before = NULL;
    for (size_t at = 0; at < length; at++) {
        if (names[at] != '\n')
            continue;
        char text[KZ_PATH];
        snprintf(text, sizeof text, "%.*s", (int)(at - start), (const char *)names + start);
        size_t size = entry_size(kz_letters(text));
        if (place + size > room)
            break;
        PFILE_NAMES_INFORMATION entry = (PFILE_NAMES_INFORMATION)(chain + place);
        memset(entry, 0, size);
        entry->FileNameLength = kz_widen(entry->FileName, text);
        if (before)
            before->NextEntryOffset = (ULONG)((uint8_t *)entry - (uint8_t *)before);
        before = entry;
        place += size;
        start = at + 1;
    }
    return place;
}

/* The names that a chain has, in `room`; how many bytes they take. */
static size_t names_in(const uint8_t *chain, size_t size, uint8_t *room, size_t space)
{
    size_t length = 0, place = 0;
    while (place + offsetof(FILE_NAMES_INFORMATION, FileName) <= size) {
        const FILE_NAMES_INFORMATION *entry = (const FILE_NAMES_INFORMATION *)(chain + place);
        size_t letters = entry->FileNameLength / sizeof(WCHAR);
        const UNICODE_STRING name = {(USHORT)entry->FileNameLength, 0, (PWSTR)entry->FileName};
        char text[KZ_PATH];
        if (entry_size(letters) > size - place || length + kz_narrow(text, sizeof text, &name) + 1 > space)
            break;
        length += (size_t)snprintf((char *)room + length, space - length, "%s\n", text);
        if (!entry->NextEntryOffset)
            break;
        place += entry->NextEntryOffset;
    }
    return length;
}

static void show_answer(KzOp *op)
{
    KzVisit *visited = op->visits;
    uint8_t *below = visited ? visited->swapped ? visited->swapped : visited->received : NULL;
    size_t room = visited ? visited->swapped ? kz_there(visited->swapped, visited->swapped_room, "swapped buffer") : visited->room : 0;
    op->data->IoStatus.Information = op->lent.information;
    switch (op->event) {
    case KZE_CREATE:
        op->data->TagData = op->other == STATUS_REPARSE ? op->tag : NULL;
        op->data->IoStatus.Information = op->lent.status && !op->data->TagData && !op->is_reopened ? 0 : op->file->created;
        break;
    case KZE_READ:
        memcpy(below, op->shown.answered, least(op->shown.answered_length, room));
        break;
    case KZE_QUERY_SIZE:
        op->data->IoStatus.Information = 0;
        if (op->lent.status == KZS_OK && room >= sizeof(FILE_STANDARD_INFORMATION)) {
            kz_show_size(op->file, op->lent.information, (PFILE_STANDARD_INFORMATION)below);
            op->data->IoStatus.Information = sizeof(FILE_STANDARD_INFORMATION);
        }
        break;
    case KZE_LIST: {
        size_t size = show_names(op->shown.answered, op->shown.answered_length, below, room);
        op->data->IoStatus.Information = size;
        /* Names that have no room in the buffer aren't shown, and aren't lost: what the callback saw is what its answer is compared with. */
        op->shown.answered_length = names_in(below, size, op->shown.answered, op->shown.answered_length);
        op->lent.information = op->shown.answered_length;
        break;
    }
    }
}

/* What the manager doesn't look at isn't lost: a completion that wasn't seen by any postoperation yet is put in the answer. */
static void put_served(KzOp *op)
{
    if (!op->served.is_there)
        return;
    op->served.is_there = false;
    uint8_t status = op->served.has_status ? op->served.status : op->lent.status;
    KazdrinEvent put = {.worker = kz_worker(), .status = status, .number = op->lent.number, .offset = op->served.number, .flag = op->served.bytes != NULL};
    if (kazdrin_answer(&kz.manager, &put, op->served.bytes ? op->served.bytes : (const uint8_t *)"", op->served.length) != KZS_OK)
        kz_tell(KZM_LONG_ANSWER, "FLT_PREOP_COMPLETE", "an answer past a limit: it doesn't count");
    kazdrin_lent(&kz.manager, &(KazdrinEvent){.flag = 1, .worker = kz_worker()}, &op->lent, kz_me->room, sizeof kz_me->room);
}

void kz_show_post(KzOp *op, PFLT_INSTANCE instance)
{
    if (op->opaque) {
        kazdrin_lent(&kz.manager, &(KazdrinEvent){.flag = 1, .worker = kz_worker()}, &op->lent, kz_me->room, sizeof kz_me->room);
        put_served(op);
        kz_show_opaque(op, instance, true);
        return;
    }
    while (kz_has_visits(op) && op->visits && op->visits->instance != instance)
        kz_leave_visit(op);
    if (kz_has_visits(op) && !op->visits)
        kz_visit(op, instance);
    kz_show_data(op, instance);
    kazdrin_lent(&kz.manager, &(KazdrinEvent){.flag = 1, .worker = kz_worker()}, &op->lent, kz_me->room, sizeof kz_me->room);
    put_served(op);
    op->shown.answered = kz_block_of(op, kz_me->room, op->lent.length);
    op->shown.answered_length = op->lent.length;
    op->data->Flags |= FLTFL_CALLBACK_DATA_POST_OPERATION;
    op->data->IoStatus.Status = op->other ? op->other : op->is_reopened ? STATUS_SUCCESS : kz_ntstatus(op->lent.status);
    show_answer(op);
    op->shown.status = op->data->IoStatus;
    op->shown.parameters = *op->iopb;
}

/* The answer that a callback left in the buffer that it received: its number for the manager, and where its bytes are. */
static const uint8_t *answer_in(KzOp *op, uint64_t said, uint64_t *information, size_t *length)
{
    PMDL *mdl;
    ULONG *asked;
    PVOID *buffer = kz_has_buffer(op) ? kz_buffer_in(op, &op->shown.parameters.Parameters, &mdl, &asked) : NULL;
    size_t room = op->visits ? op->visits->room : 0;
    *length = 0;
    switch (op->event) {
    case KZE_READ:
        *length = least(said, room);
        *information = *length;
        return *buffer;
    case KZE_QUERY_SIZE:
        *information = said >= sizeof(FILE_STANDARD_INFORMATION) ? (uint64_t)((PFILE_STANDARD_INFORMATION)*buffer)->EndOfFile.QuadPart : 0;
        return NULL;
    case KZE_LIST:
        *length = said ? names_in(*buffer, least(said, room), kz_me->room, KZ_BYTES) : 0;
        *information = *length;
        return kz_me->room;
    default:
        *information = said;
        return NULL;
    }
}

static size_t most_of(KzOp *op)
{
    return kz_has_buffer(op) ? op->visits->room : op->event == KZE_WRITE ? op->shown.parameters.Parameters.Write.Length : SIZE_MAX;
}

/* How much of a paging read or write the file has, which its answer has to say. */
static uint64_t least_of_page(const KzOp *op)
{
    uint64_t begin = op->lent.offset, size = op->file->name->stream->size;
    uint64_t asked = op->event == KZE_READ ? op->lent.len : op->shown.parameters.Parameters.Write.Length, there = begin < size ? size - begin : 0;
    return op->event == KZE_WRITE || asked < there ? asked : there;
}

/* Pages are whole: nobody asks for the rest. */
static void check_page(KzOp *op, const char *call, uint64_t said)
{
    bool is_data = op->event == KZE_READ || op->event == KZE_WRITE;
    if (!is_data || !kz_is_for_cache(op) || !NT_SUCCESS(op->data->IoStatus.Status) || said >= least_of_page(op))
        return;
    if (op->event == KZE_READ)
        kz_tell(KZM_PAGE_SHORT, call, "IoStatus.Information of a paging read is %llu, and the file has %llu bytes there: the rest of the page is zeros from then on", (unsigned long long)said,
                (unsigned long long)least_of_page(op));
    else
        kz_tell(KZM_PAGE_LOST, call, "IoStatus.Information of a paging write is %llu of %llu bytes: the rest counts as written, and is lost", (unsigned long long)said, (unsigned long long)least_of_page(op));
}

static void check_length(KzOp *op, const char *call, bool is_changed)
{
    uint64_t said = op->data->IoStatus.Information;
    if (is_changed)
        check_page(op, call, said);
    if (said > most_of(op))
        kz_tell(KZM_PAST_LENGTH, call, "IoStatus.Information %llu is past the %llu bytes that were asked for", (unsigned long long)said,
                (unsigned long long)most_of(op));
}

/* A preoperation completed it: what is beside the status waits until the manager can be told. */
void kz_serve(KzOp *op)
{
    if (op->opaque) {
        kz_serve_opaque(op);
        return;
    }
    uint64_t said = op->data->IoStatus.Information;
    check_length(op, "FLT_PREOP_COMPLETE", true);
    if (!NT_SUCCESS(op->data->IoStatus.Status) || op->event == KZE_CREATE || op->event == KZE_CLEANUP || op->event == KZE_CLOSE)
        return;
    const uint8_t *bytes = answer_in(op, least(said, most_of(op)), &op->served.number, &op->served.length);
    op->served.bytes = bytes ? kz_block_of(op, bytes, op->served.length) : NULL;
    op->served.is_there = said != 0;
}

static bool is_same(KzOp *op, uint64_t information, const uint8_t *bytes, size_t length)
{
    if (op->data->IoStatus.Status != op->shown.status.Status || information != op->lent.information)
        return false;
    return !bytes || (length == op->shown.answered_length && memcmp(bytes, op->shown.answered, length) == 0);
}

/* The number of a status, and the kit's own where that stands for another. */
static uint32_t status_of(KzOp *op, NTSTATUS status)
{
    bool is_exact;
    uint32_t number = kz_number(status, &is_exact);
    op->other = is_exact ? STATUS_SUCCESS : status;
    return number;
}

/* Whether a callback left another answer than it was shown: then that is `now`. Its bytes lie in the driver's buffer. */
static bool changes_answer(KzOp *op, KzServed *now)
{
    uint64_t information, said = op->data->IoStatus.Information;
    size_t length;
    kz_check_target(op, op->data->Flags & FLTFL_CALLBACK_DATA_DIRTY);
    check_length(op, "FLT_CALLBACK_DATA", said != op->shown.status.Information);
    const uint8_t *bytes = answer_in(op, said, &information, &length);
    if (!kz_has_buffer(op) && said == op->shown.status.Information)
        information = op->lent.information;
    if (op->event == KZE_QUERY_SIZE && !NT_SUCCESS(op->data->IoStatus.Status))
        information = op->lent.information;
    if (kz_is_touched(op) && op->data->Flags & FLTFL_CALLBACK_DATA_DIRTY)
        kz_tell(KZM_DIRTY_POST, "FltSetCallbackDataDirty", "parameters that a postoperation changes don't count");
    if (is_same(op, information, bytes, length))
        return false;
    if (op->data->IoStatus.Status == STATUS_PENDING) {
        kz_tell(KZM_COMPLETED_PENDING, "FLT_CALLBACK_DATA", "IoStatus.Status is STATUS_PENDING: it doesn't count");
        return false;
    }
    if (op->is_cancelled && (!NT_SUCCESS(op->data->IoStatus.Status) || op->data->IoStatus.Status == STATUS_REPARSE)) {
        op->other = op->data->IoStatus.Status; /* those above see it */
        return false;
    }
    if (op->event == KZE_CREATE && NT_SUCCESS(op->shown.status.Status) && !NT_SUCCESS(op->data->IoStatus.Status)) {
        kz_tell(KZM_DENIED_OPEN, "FltCancelFileOpen", "never called for a create that its postoperation fails with 0x%08x: the file stays open", (unsigned)op->data->IoStatus.Status);
        return false;
    }
    if (op->event == KZE_CREATE || op->event == KZE_CLEANUP || op->event == KZE_CLOSE) {
        kz_tell(KZM_CREATE_ANSWER, "FLT_CALLBACK_DATA", "IoStatus of a create, a cleanup or a close, changed in a postoperation: it doesn't count");
        return false;
    }
    uint32_t status = op->data->IoStatus.Status == op->shown.status.Status ? op->lent.status : status_of(op, op->data->IoStatus.Status);
    *now = (KzServed){true, true, (uint8_t)status, information, bytes, length};
    return true;
}

void kz_take_post(KzOp *op)
{
    if (op->opaque) {
        kz_take_opaque_post(op);
        return;
    }
    KzServed now;
    if (!changes_answer(op, &now))
        return;
    KazdrinEvent put = {.worker = kz_worker(), .status = now.status, .number = op->lent.number, .offset = now.number, .flag = now.bytes != NULL};
    if (kazdrin_answer(&kz.manager, &put, now.bytes ? now.bytes : (const uint8_t *)"", now.length) != KZS_OK)
        kz_tell(KZM_LONG_ANSWER, "FLT_CALLBACK_DATA", "an answer past a limit of the manager: it doesn't count");
}

/* A postoperation that is held completes it: the manager learns of what it changed where it next lends the answer, and else the client does. */
void kz_take_held(KzOp *op)
{
    if (op->opaque) {
        kz_take_opaque_post(op);
        return;
    }
    KzServed now;
    if (!changes_answer(op, &now))
        return;
    now.bytes = now.bytes ? kz_block_of(op, now.bytes, now.length) : NULL;
    op->served = now;
}
