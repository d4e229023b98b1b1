/* Memory that drivers see: each piece lies between two red zones, and is filled before its first use and after its last one. */
#ifndef KZ_CORE_PIECE_H
#define KZ_CORE_PIECE_H

#include "host.h"
#include "core/place.h"

/* An input is what the system has copied of a program's. */
typedef enum { KZK_POOL, KZK_CONTEXT, KZK_NAME, KZK_BUFFER, KZK_CALLER, KZK_INPUT, KZK_DATA } KzMemory;

/* Of a security descriptor, which lies in a pool. */
#define KZ_DESCRIPTOR_TAG 'dsMF'

/* What memory that was given back is filled with. */
enum { KZ_GONE_BYTE = 0xdd };
/* And the zones before and behind it. */
enum { KZ_ZONE_BYTE = 0xfd };

/* Who may touch it (core/access.h): a caller's is the buffer of the program that asked. */
typedef enum { KZ_EVERYBODYS, KZ_PAGED, KZ_CALLERS, KZ_MANAGERS } KzOwner;

typedef struct KzPiece {
    struct KzPiece *next, *before;
    struct KzPiece *same; /* the next one at the same place of the table by address */
    uint8_t *body;        /* as its user sees it */
    void *start;          /* what was allocated, if it has no pages of its own */
    uint8_t *pages;       /* else these */
    size_t size, pages_size;
    bool has_edge, is_edge_open; /* its end is that of its pages, and a shut one lies behind them, which is open once it was touched */
    const char *subject;         /* what is told of it is told of this */
    bool is_shut; /* its pages can't be touched: it was given back */
    PFLT_FILTER filter;
    KzPlace place; /* where it was taken */
    ULONG tag;
    KzOwner owner;
    struct KzPiece *owned, *owned_before; /* those that aren't everybody's */
    uint64_t process;                     /* whose it is */
    unsigned locks;                       /* MDLs that have its pages */
    bool has_changed;                     /* by its program, under the explorer */
    int rights;                           /* of its pages */
    bool is_let;                          /* to who touches it since its IRQL or process changed */
    const void *lookaside; /* the list that it is of; NULL if it is of none */
    KzMemory kind;
    unsigned list;
    bool is_told, is_read_told;
    bool is_touched; /* behind its end, and that was told */
} __attribute__((aligned(16))) KzPiece;

/* What a driver is given has no pages of its own in this run: it costs half the time, and an access past its end, or after it was given back, isn't told as it happens. */
void kz_guard_none(void);

#define kz_check_text(text, call) kz_check_text_from(text, call, KZ_CALLER())
void *kz_take_memory(KzMemory kind, size_t size, int fill, ULONG tag);
void kz_give_back(void *memory);
KzPiece *kz_piece_of(const void *memory);
/* All that are there. */
KzPiece *kz_first_piece(void);
KzPiece *kz_next_piece(const KzPiece *piece);
/* Whether it lies in memory that was given back not long ago. */
bool kz_is_freed(const void *memory);
/* How many of so many bytes of a driver's memory there are, and 0 where it was freed: that is told. What isn't known is taken as it is. */
size_t kz_there(const void *memory, size_t size, const char *what);
/* A text that begins there is read up to its null: that there is none is told. */
void kz_check_text_from(const void *text, const char *call, const void *from);
const char *kz_tag(ULONG tag, char *room);
void kz_check_piece(KzPiece *piece);
/* Whether memory of that kind is looked at where it ends, byte by byte. */
bool kz_ends_with_page(KzMemory kind);
/* Memory before or behind it is written, or read: that is told, once. */
void kz_tell_past(KzPiece *piece, bool is_behind, bool is_written, const void *from);
void kz_check_memory(PFLT_FILTER filter);
void kz_check_all_memory(PFLT_FILTER filter);
void kz_check_blocks(const KzOp *op);
void kz_tell_pools(PFLT_FILTER filter);
/* The call that alone may free what another call of the kit made; NULL if that isn't so. */
const char *kz_unmaker_of(const KzPiece *piece);
void kz_tell_gone(void);
/* A touch that the processor refused: by which code, and who called that, if it keeps nothing on the stack. */
typedef struct {
    const void *address, *code, *caller;
    bool is_written;
} KzTouched;
/* Whether it is of memory that was given back. That is told, and may be touched from then on. */
bool kz_touched(const KzTouched *touch);
extern const struct KzModule kz_piece_module;

#endif
