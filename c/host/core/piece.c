/* Memory that drivers see: each piece lies between two red zones, and is filled before its first use and after its last one. What is written where it mustn't be is told.
 * What a driver allocates has pages of its own, as far as there are some: those are shut once it is given back, so that an access is told as it happens.
 * Under the address sanitizer the zones are its own, and it tells. */
#define _GNU_SOURCE
#include "core/piece.h"

#include "core/access.h"
#include "core/client.h"
#include "core/edge.h"
#include "core/memory.h"
#include "core/module.h"
#include "core/op.h"
#include "core/place.h"
#include "core/source.h"
#include "core/state.h"
#include "core/told.h"

#include <stdlib.h>
#include <sys/mman.h>

/* There under the address sanitizer alone. */
extern void __asan_poison_memory_region(const volatile void *start, size_t size) __attribute__((weak));
extern void __asan_unpoison_memory_region(const volatile void *start, size_t size) __attribute__((weak));
extern void __ubsan_handle_type_mismatch_v1(void *data, void *value) __attribute__((weak));

/* What may hold a structure that the processor's caches are counted by lies at their boundary, as in the kit. */
enum { LINE = 64 };
enum { ZONE = 32 };
/* How much of what was given back is kept, to see whether it is written. */
enum { KEPT = 64, KEPT_BYTES = 32768 };

/* Pieces of up to so many bytes have pages of their own, and up to so many pieces at once: the system has no more than 65,530 ranges of pages. */
enum { PAGE = 4096, GUARDED_BYTES = 64 * 1024, GUARDED = 8192 };

/* Up to so many pieces each one is looked at as a callback returns. Where there are more, the last few that the client took are, and all of them now and then. */
enum { FEW = 256, LAST = 64, NOW_AND_THEN = 256 };

/* All pieces by their address. Those that are near one another have places near one another, whether they have pages of their own or not: the explorer puts back each page that is written. */
enum { PLACES = 1 << 14 };

/* Of each client the pieces that it took, the newest first, and those that it gave back: so their order is its own alone. Whoever has the manager has these too. */
enum { LISTS = KZ_FIRST_THREAD + KZ_THREADS };
struct KzPieceState {
    KzPiece *places[PLACES]; /* by their address */
    size_t count, guarded;
    bool has_no_guards;
    unsigned lists; /* up to the last one that was ever used */
    unsigned returns; /* since all were looked at */
    /* Of each client the pieces that it took, the newest first, and those that it gave back: so their order is its own alone. Whoever has the manager has these too. */
    KzPiece *taken[LISTS];
    struct {
        KzPiece *pieces[KEPT];
        size_t next;
    } gone[LISTS];
};

static unsigned my_list(void)
{
    return kz_me->number % LISTS;
}

static KzPiece *first_from(unsigned list)
{
    while (list < kz.piece->lists && !kz.piece->taken[list])
        list++;
    return list < kz.piece->lists ? kz.piece->taken[list] : NULL;
}

KzPiece *kz_first_piece(void)
{
    return first_from(0);
}

KzPiece *kz_next_piece(const KzPiece *piece)
{
    return piece->next ? piece->next : first_from(piece->list + 1);
}

static uint8_t *body_of(const KzPiece *piece)
{
    return piece->body;
}

static KzPiece **place_of(const void *body)
{
    uintptr_t address = (uintptr_t)body;
    return &kz.piece->places[(address >> 4 ^ address >> 13) % PLACES];
}

static void enter_table(KzPiece *piece)
{
    KzPiece **place = place_of(body_of(piece));
    piece->same = *place;
    *place = piece;
    kz.piece->count++;
}

static void leave_table(KzPiece *piece)
{
    KzPiece **at = place_of(body_of(piece));
    while (*at != piece)
        at = &(*at)->same;
    *at = piece->same;
    kz.piece->count--;
}

static void shut(const KzPiece *piece)
{
    if (__asan_poison_memory_region) {
        __asan_poison_memory_region(body_of(piece) - ZONE, ZONE);
        __asan_poison_memory_region(body_of(piece) + piece->size, ZONE);
    }
}

static void open_all(const KzPiece *piece)
{
    if (__asan_unpoison_memory_region)
        __asan_unpoison_memory_region(body_of(piece) - ZONE, ZONE + piece->size + ZONE);
}

void kz_guard_none(void)
{
    kz.piece->has_no_guards = true;
}

static bool is_guarded(KzMemory kind, size_t size)
{
    return !kz.piece->has_no_guards && kz_scheduler->has_pages && !__asan_poison_memory_region && kind != KZK_BUFFER && kind != KZK_DATA && size <= GUARDED_BYTES &&
           kz.piece->guarded < GUARDED;
}

static uint8_t *at_boundary(uint8_t *start, size_t size)
{
    uintptr_t boundary = size < LINE ? 16 : LINE;
    return (uint8_t *)(((uintptr_t)start + ZONE + boundary - 1) & ~(boundary - 1));
}

bool kz_ends_with_page(KzMemory kind)
{
    return kind == KZK_NAME || kind == KZK_CALLER || kind == KZK_INPUT;
}

/* The sanitizer of undefined behaviour looks at what isn't aligned: there it is as the kit has it. */
static uint8_t *before_edge(uint8_t *edge, size_t size)
{
    uint8_t *body = edge - size;
    return __ubsan_handle_type_mismatch_v1 ? (uint8_t *)((uintptr_t)body & ~(uintptr_t)15) : body;
}

static uint8_t *take_pages(size_t size)
{
    void *pages = mmap(NULL, size, PROT_READ | PROT_WRITE, MAP_PRIVATE | MAP_ANONYMOUS, -1, 0);
    return pages == MAP_FAILED ? NULL : pages;
}

/* A piece with its zones; NULL if there is no memory. */
static KzPiece *allocate(KzMemory kind, size_t size)
{
    size_t whole = ZONE + LINE + size + ZONE + sizeof(WCHAR);
    if (!is_guarded(kind, size)) {
        KzPiece *piece = malloc(sizeof *piece + whole);
        if (piece)
            *piece = (KzPiece){.start = piece, .body = at_boundary((uint8_t *)(piece + 1), size)};
        return piece;
    }
    KzPiece *piece = malloc(sizeof *piece);
    bool has_edge = kz_ends_with_page(kind);
    size_t pages = ((has_edge ? ZONE + size : whole) + PAGE - 1) & ~(size_t)(PAGE - 1);
    uint8_t *start = !piece ? NULL : has_edge ? kz_take_edge(pages) : take_pages(pages);
    if (!start) {
        free(piece);
        return NULL;
    }
    *piece = (KzPiece){.pages = start, .pages_size = pages, .has_edge = has_edge, .body = has_edge ? before_edge(start + pages, size) : at_boundary(start, size)};
    kz.piece->guarded++;
    return piece;
}

static void let_go(KzPiece *piece)
{
    if (!piece)
        return;
    if (piece->has_edge)
        kz_give_edge(piece->pages, piece->pages_size, piece->is_edge_open);
    else if (piece->pages)
        munmap(piece->pages, piece->pages_size);
    kz.piece->guarded -= piece->pages != NULL;
    free(piece);
}

/* What a driver asks for may be refused. The host's own has what a server keeps back. */
static KzPiece *allocate_own(KzMemory kind, size_t size)
{
    KzPiece *piece = allocate(kind, size);
    while (!piece && kind != KZK_POOL && kind != KZK_CONTEXT && kz_give_way())
        piece = allocate(kind, size);
    return piece;
}

void *kz_take_memory(KzMemory kind, size_t size, int fill, ULONG tag)
{
    KzPiece *piece = size <= KZ_LARGEST ? allocate_own(kind, size) : NULL;
    if (!piece)
        return NULL;
    KzPiece **first = &kz.piece->taken[my_list()];
    piece->next = *first;
    piece->size = size;
    piece->kind = kind;
    piece->place = kz_me->place;
    piece->filter = kz_me->place.filter;
    piece->tag = tag;
    piece->list = my_list();
    if (*first)
        (*first)->before = piece;
    *first = piece;
    if (piece->list >= kz.piece->lists)
        kz.piece->lists = piece->list + 1;
    enter_table(piece);
    memset(body_of(piece) - ZONE, KZ_ZONE_BYTE, ZONE);
    memset(body_of(piece), fill, size);
    if (!piece->has_edge) {
        memset(body_of(piece) + size, KZ_ZONE_BYTE, ZONE);
        memset(body_of(piece) + size + ZONE, 0, sizeof(WCHAR)); /* who reads a text past its end comes to one here */
    }
    shut(piece);
    return body_of(piece);
}

KzPiece *kz_piece_of(const void *memory)
{
    KzPiece *piece = *place_of(memory);
    while (piece && body_of(piece) != memory)
        piece = piece->same;
    return piece;
}

static bool is_filled(const uint8_t *bytes, size_t size, uint8_t byte)
{
    uint64_t wide = byte * 0x0101010101010101ULL, part;
    for (; size >= sizeof part; bytes += sizeof part, size -= sizeof part) {
        memcpy(&part, bytes, sizeof part);
        if (part != wide)
            return false;
    }
    return size == 0 || (bytes[0] == byte && memcmp(bytes, bytes + 1, size - 1) == 0);
}

static bool is_zone(const uint8_t *bytes)
{
    static const uint8_t zone[ZONE] = {[0 ... ZONE - 1] = KZ_ZONE_BYTE};
    return memcmp(bytes, zone, ZONE) == 0;
}

const char *kz_tag(ULONG tag, char *room)
{
    for (int at = 0; at < 4; at++) {
        char letter = (char)(tag >> 8 * at & 127);
        room[at] = letter < ' ' || letter == 127 ? '.' : letter;
    }
    room[4] = 0;
    return room;
}

void kz_check_piece(KzPiece *piece)
{
    if (__asan_poison_memory_region || piece->is_told)
        return;
    bool is_before = !is_zone(body_of(piece) - ZONE), is_behind = !piece->has_edge && !is_zone(body_of(piece) + piece->size);
    if (is_before || is_behind)
        kz_tell_past(piece, is_behind, true, NULL);
}

static const char *subject_of(const KzPiece *piece)
{
    static const char *const calls[] = {[KZK_POOL] = "ExAllocatePoolWithTag", [KZK_CONTEXT] = "FltAllocateContext", [KZK_NAME] = "UNICODE_STRING", [KZK_BUFFER] = "FLT_CALLBACK_DATA",
                                        [KZK_CALLER] = "FLT_CALLBACK_DATA", [KZK_INPUT] = "FLT_CALLBACK_DATA", [KZK_DATA] = "FLT_CALLBACK_DATA"};
    return piece->subject ? piece->subject : calls[piece->kind];
}

static void tell_past(const KzPiece *piece, const char *where, bool is_written)
{
    char tag[8], taken[40] = "";
    const char *call = subject_of(piece), *how = is_written ? "was written" : "was read";
    unsigned long long size = piece->size;
    if (piece->place.from)
        snprintf(taken, sizeof taken, ", taken at @%lx,", (unsigned long)kz_in_file(piece->place.from));
    if (piece->kind == KZK_POOL)
        kz_tell(KZM_PAST_POOL, call, "memory %s the %llu bytes of a pool with the tag '%s'%s %s", where, size, kz_tag(piece->tag, tag), taken, how);
    else if (piece->kind == KZK_CONTEXT)
        kz_tell(KZM_PAST_CONTEXT, call, "memory %s the %llu bytes of a context%s %s", where, size, taken, how);
    else if (piece->kind == KZK_NAME)
        kz_tell(is_written ? KZM_PAST_BUFFER : KZM_READ_PAST, call, "memory %s the %llu bytes of a name %s", where, size, how);
    else
        kz_tell(is_written ? KZM_PAST_BUFFER : KZM_READ_PAST, call, "memory %s a buffer of %llu bytes %s", where, size, how);
}

/* Where it is touched is known where its pages are shut. */
void kz_tell_past(KzPiece *piece, bool is_behind, bool is_written, const void *from)
{
    KzPlace before = kz_me->place;
    bool *is_told = is_written ? &piece->is_told : &piece->is_read_told;
    if (*is_told)
        return;
    *is_told = true;
    if (from) {
        kz_me->place.call = subject_of(piece);
        kz_me->place.from = from;
    }
    tell_past(piece, is_behind ? "past" : "before", is_written);
    kz_me->place = before;
}

static void look_at_last(PFLT_FILTER filter);

/* Looks at all memory of a filter. */
void kz_check_all_memory(PFLT_FILTER filter)
{
    for (KzPiece *piece = kz_first_piece(); piece; piece = kz_next_piece(piece))
        if (piece->filter == filter)
            kz_check_piece(piece);
}

/* And as its callback returns. */
void kz_check_memory(PFLT_FILTER filter)
{
    if (kz.piece->count > FEW)
        kz_uses_all(); /* how many callbacks have returned decides what is looked at */
    if (kz.piece->count <= FEW || ++kz.piece->returns % NOW_AND_THEN == 0) {
        kz_check_all_memory(filter);
    } else {
        KzPiece *piece = kz.piece->taken[my_list()];
        for (unsigned at = 0; piece && at < LAST; at++, piece = piece->next)
            if (piece->filter == filter)
                kz_check_piece(piece);
    }
    look_at_last(filter);
}

bool kz_is_freed(const void *memory)
{
    for (size_t at = 0; at < (size_t)LISTS * KEPT; at++) {
        const KzPiece *piece = kz.piece->gone[at / KEPT].pieces[at % KEPT];
        if (piece && (uintptr_t)memory - (uintptr_t)body_of(piece) < (piece->size ? piece->size : 1))
            return true;
    }
    return false;
}

size_t kz_there(const void *memory, size_t size, const char *what)
{
    const KzPiece *piece = kz_piece_of(memory);
    if (!piece && kz_is_freed(memory)) {
        kz_tell(KZM_NO_SWAP_BUFFER, what, "the %llu bytes that the driver put there were freed before they were used", (unsigned long long)size);
        return 0;
    }
    if (!piece || size <= piece->size)
        return size;
    kz_tell(KZM_NO_SWAP_BUFFER, what, "the driver put %llu bytes there, and says that there are %llu", (unsigned long long)piece->size, (unsigned long long)size);
    return piece->size;
}

void kz_check_text_from(const void *text, const char *call, const void *from)
{
    KZ_INSIDE_FROM(call, from);
    kz_acts_as_driver();
    KzPiece *piece = kz_piece_of(text);
    const WCHAR *letters = text;
    size_t count = piece ? piece->size / sizeof(WCHAR) : 1;
    for (size_t at = 0; piece && at < count; at++)
        if (!letters[at])
            return;
    if (!piece || piece->kind != KZK_NAME || piece->is_read_told)
        return;
    piece->is_read_told = true;
    kz_tell(KZM_NOT_TERMINATED, call, "a name of %llu bytes, which no null ends: it is read past its end", (unsigned long long)piece->size);
}

/* And at the buffers of its operation, and the name of its file. */
void kz_check_blocks(const KzOp *op)
{
    KzPiece *name = kz_piece_of(op->file->object.FileName.Buffer);
    if (name)
        kz_check_piece(name);
    for (const KzBlock *block = op->blocks; block; block = block->next)
        kz_check_piece(kz_piece_of(block->bytes));
}

static bool is_written(const KzPiece *piece)
{
    return !piece->is_shut && !piece->is_touched && !is_filled(body_of(piece), piece->size, KZ_GONE_BYTE);
}

/* Whether memory that was given back was written since: then that is told, once. */
static void look_at(KzPiece *piece)
{
    char tag[8], where[32] = "";
    if (!is_written(piece))
        return;
    if (piece->place.from)
        snprintf(where, sizeof where, " at @%lx", (unsigned long)kz_in_file(piece->place.from));
    if (piece->kind == KZK_POOL)
        kz_tell(KZM_WRITTEN_FREED, "ExFreePoolWithTag", "%llu bytes of a pool were written after they were freed%s, tag '%s'", (unsigned long long)piece->size, where,
                kz_tag(piece->tag, tag));
    else if (piece->kind == KZK_DATA)
        kz_tell(KZM_WRITTEN_DATA, "FltCompletePendedPreOperation", "callback data was written after the operation was completed");
    else if (piece->kind == KZK_CALLER || piece->kind == KZK_INPUT)
        kz_tell(KZM_WRITTEN_DATA, "FltCompletePendedPreOperation", "a caller's buffer was written after the operation was over");
    else
        kz_tell(KZM_WRITTEN_CONTEXT, "FltReleaseContext", "%llu bytes were written after they were cleaned up%s", (unsigned long long)piece->size, where);
    memset(body_of(piece), KZ_GONE_BYTE, piece->size);
}

/* The last few that a filter gave back in this client, as its callback returns. */
static void look_at_last(PFLT_FILTER filter)
{
    for (size_t at = 1; at <= 8; at++) {
        KzPiece *piece = kz.piece->gone[my_list()].pieces[(kz.piece->gone[my_list()].next + KEPT - at) % KEPT];
        if (piece && piece->filter == filter && piece->size <= 256)
            look_at(piece);
    }
}

static void forget(KzPiece **place)
{
    KzPiece *piece = *place;
    *place = NULL;
    if (!piece)
        return;
    if (is_written(piece)) {
        KzPlace before = kz_enter(KZ_IN_NOTHING, kz_worker(), piece->filter, NULL, NULL, NULL);
        look_at(piece);
        kz_me->place = before;
    }
    let_go(piece);
}

void kz_give_back(void *memory)
{
    KzPiece *piece = memory ? kz_piece_of(memory) : NULL;
    if (!piece)
        return;
    kz_disown(piece);
    kz_check_piece(piece);
    kz_memory_goes(memory, piece->size);
    kz_scheduler->touch(body_of(piece), piece->size, KZT_HAS_TAKEN_BACK);
    *(piece->before ? &piece->before->next : &kz.piece->taken[piece->list]) = piece->next;
    if (piece->next)
        piece->next->before = piece->before;
    leave_table(piece);
    open_all(piece);
    if (__asan_poison_memory_region || (!piece->pages && piece->size > KEPT_BYTES)) {
        let_go(piece);
        return;
    }
    memset(body_of(piece), KZ_GONE_BYTE, piece->size);
    piece->place = kz_me->place; /* where it was given back */
    piece->is_shut = piece->pages && mprotect(piece->pages, piece->pages_size, PROT_NONE) == 0;
    size_t *next = &kz.piece->gone[my_list()].next;
    forget(&kz.piece->gone[my_list()].pieces[*next]);
    kz.piece->gone[my_list()].pieces[*next] = piece;
    *next = (*next + 1) % KEPT;
}

/* ---- What is touched behind that. */
static KzPiece *shut_piece_at(const void *address)
{
    for (size_t at = 0; at < (size_t)LISTS * KEPT; at++) {
        KzPiece *piece = kz.piece->gone[at / KEPT].pieces[at % KEPT];
        if (piece && piece->is_shut && (uintptr_t)address - (uintptr_t)piece->pages < piece->pages_size + (piece->has_edge ? PAGE : 0))
            return piece;
    }
    return NULL;
}

static const char *giving_back(const KzPiece *piece)
{
    static const char *const calls[] = {[KZK_POOL] = "ExFreePoolWithTag", [KZK_CONTEXT] = "FltReleaseContext", [KZK_NAME] = "FltReleaseFileNameInformation", [KZK_CALLER] = "FLT_CALLBACK_DATA",
                                        [KZK_INPUT] = "FLT_CALLBACK_DATA"};
    return piece->subject ? piece->subject : calls[piece->kind];
}

static void tell_touch(const KzPiece *piece, bool is_written)
{
    static const char *const kinds[] = {[KZK_POOL] = "a pool", [KZK_CONTEXT] = "a context", [KZK_NAME] = "a name", [KZK_CALLER] = "a caller's buffer", [KZK_INPUT] = "a caller's buffer"};
    char where[32] = "";
    if (piece->place.from)
        snprintf(where, sizeof where, " at @%lx", (unsigned long)kz_in_file(piece->place.from));
    KzMessage written = piece->kind == KZK_CONTEXT ? KZM_WRITTEN_CONTEXT : KZM_WRITTEN_FREED;
    kz_tell(is_written ? written : KZM_READ_FREED, giving_back(piece), "%llu bytes of %s are %s after they were given back%s", (unsigned long long)piece->size, kinds[piece->kind],
            is_written ? "written" : "read", where);
}

/* The driver's own code stands there, or code that it called. Reads see the bytes with which it was filled. */
bool kz_touched(const KzTouched *touch)
{
    char line[100];
    const void *address = touch->address, *code = touch->code;
    bool is_written = touch->is_written;
    if (kz_touched_owned(touch) || kz_touched_edge(address, code, touch->caller, is_written))
        return true;
    KZ_INSIDE_UNSAID();
    KzPiece *piece = shut_piece_at(address);
    if (!piece)
        return false;
    mprotect(piece->pages, piece->pages_size + (piece->has_edge ? PAGE : 0), PROT_READ | PROT_WRITE);
    piece->is_edge_open = true;
    piece->is_shut = false;
    piece->is_touched = true;
    KzPlace before = kz_me->place;
    if (kz_find_source(kz_in_file(code) + 1, line, sizeof line)) {
        kz_me->place.call = giving_back(piece);
        kz_me->place.from = (const uint8_t *)code + 1;
    }
    tell_touch(piece, is_written);
    kz_me->place = before;
    return true;
}

static void forget_list(unsigned list)
{
    for (size_t at = 0; at < KEPT; at++)
        forget(&kz.piece->gone[list].pieces[(kz.piece->gone[list].next + at) % KEPT]);
}

/* At the end: what was written after its last use is told. */
void kz_tell_gone(void)
{
    for (unsigned list = 0; list < LISTS; list++)
        if (kz.piece->gone[list].pieces[0])
            forget_list(list);
}

/* What calls of the kit make in a pool, and which call alone may free it. What others may free too isn't here, or has `is_open`. */
static const struct {
    const char *maker, *unmaker;
    bool is_open;
} makers[] = {
    {"BCryptCreateHash", "BCryptDestroyHash", false},
    {"BCryptDuplicateHash", "BCryptDestroyHash", false},
    {"BCryptGenerateSymmetricKey", "BCryptDestroyKey", false},
    {"BCryptImportKey", "BCryptDestroyKey", false},
    {"BCryptOpenAlgorithmProvider", "BCryptCloseAlgorithmProvider", false},
    {"CmCallbackGetKeyObjectIDEx", "CmCallbackReleaseKeyObjectIDEx", false},
    {"EtwRegister", "EtwUnregister", false},
    {"ExAllocateCacheAwareRundownProtection", "ExFreeCacheAwareRundownProtection", false},
    {"FltAllocateCallbackData", "FltFreeCallbackData", false},
    {"FltAllocateCallbackDataEx", "FltFreeCallbackData", false},
    {"FltAllocateDeferredIoWorkItem", "FltFreeDeferredIoWorkItem", false},
    {"FltAllocateExtraCreateParameter", "FltFreeExtraCreateParameter", false},
    {"FltAllocateExtraCreateParameterList", "FltFreeExtraCreateParameterList", false},
    {"FltAllocateFileLock", "FltFreeFileLock", false},
    {"FltAllocateGenericWorkItem", "FltFreeGenericWorkItem", false},
    {"FltAllocatePoolAlignedWithTag", "FltFreePoolAlignedWithTag", false},
    {"FltBuildDefaultSecurityDescriptor", "FltFreeSecurityDescriptor", false},
    {"IoAllocateMdl", "IoFreeMdl", false},
    {"IoAllocateWorkItem", "IoFreeWorkItem", false},
    {"IoCreateDevice", "IoDeleteDevice", false},
    {"IoCreateSymbolicLink", "IoDeleteSymbolicLink", false},
    {"RtlAnsiStringToUnicodeString", "RtlFreeUnicodeString", true},
    {"RtlCreateUnicodeString", "RtlFreeUnicodeString", true},
    {"RtlDowncaseUnicodeString", "RtlFreeUnicodeString", true},
    {"RtlDuplicateUnicodeString", "RtlFreeUnicodeString", true},
    {"RtlStringFromGUID", "RtlFreeUnicodeString", true},
    {"RtlUnicodeStringToAnsiString", "RtlFreeAnsiString", true},
    {"RtlUpcaseUnicodeString", "RtlFreeUnicodeString", true},
    {"SeCaptureSubjectContext", "SeReleaseSubjectContext", false},
};

/* The call that is meant for it; NULL for a driver's own memory. */
static const char *unmaker_of(const KzPiece *piece, bool is_only)
{
    const char *maker = piece->place.call;
    for (size_t at = 0; maker && at < sizeof makers / sizeof makers[0]; at++)
        if (strcmp(makers[at].maker, maker) == 0 && !(is_only && makers[at].is_open))
            return makers[at].unmaker;
    return NULL;
}

const char *kz_unmaker_of(const KzPiece *piece)
{
    return unmaker_of(piece, true);
}

/* Memory of a pool that a filter took and never freed, each with the callback that took it. */
void kz_tell_pools(PFLT_FILTER filter)
{
    char tag[8];
    for (KzPiece *piece = kz_first_piece(); piece; piece = kz_next_piece(piece)) {
        if (piece->kind != KZK_POOL || piece->filter != filter)
            continue;
        KzPlace before = kz_enter_again(&piece->place);
        if (unmaker_of(piece, false))
            kz_tell_of(body_of(piece), KZM_POOL_LEAK, unmaker_of(piece, false), "never called for what was made here");
        else
            kz_tell_of(body_of(piece), KZM_POOL_LEAK, "ExFreePoolWithTag", "never called for %llu bytes of a pool, tag '%s'", (unsigned long long)piece->size, kz_tag(piece->tag, tag));
        kz_me->place = before;
    }
}

static void free_memory(void)
{
    for (KzPiece *piece = kz_first_piece(), *behind; piece; piece = behind) {
        behind = kz_next_piece(piece);
        open_all(piece);
        let_go(piece);
    }
    for (size_t at = 0; at < (size_t)LISTS * KEPT; at++)
        let_go(kz.piece->gone[at / KEPT].pieces[at % KEPT]);
}
const KzModule kz_piece_module = {KZ_STATE(piece), .free = free_memory};
