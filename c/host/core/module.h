/* What the core asks of those above it, without knowing them: their tables are handed down as a run begins. */
#ifndef KZ_CORE_MODULE_H
#define KZ_CORE_MODULE_H

#include "host.h"
#include "core/place.h"

#include <stddef.h>

/* What a module keeps of a run: the field of kz that leads to it, and how large it is. */
#define KZ_STATE(field) .place = offsetof(KzHost, field), .size = sizeof *kz.field

/* One module: what it has none of is NULL. */
typedef struct KzModule {
    size_t place, size;
    void (*free)(void);                             /* a run is over */
    void (*filter_begins)(PFLT_FILTER filter);      /* its DriverEntry has returned */
    void (*filter_unregisters)(PFLT_FILTER filter);
    void (*filter_ends)(PFLT_FILTER filter);        /* what it left behind is told */
    bool (*has_any_of)(PFLT_FILTER filter);         /* that could run code of its driver */
    void (*memory_goes)(const void *memory, size_t size); /* it is given back: nothing that is in use may lie in it */
    void (*operation_ends)(KzOp *op);
    bool (*is_mapped)(KzOp *op, const void *stream, uint64_t size); /* the file is to be cut to that size: whether something still needs what is behind it */
    void (*let_go)(const void *object);             /* its last reference has gone, or a handle of it */
    void (*cut)(const void *stream, uint64_t size); /* it was */
    void (*kept)(const void *stream, KzFile *by);   /* what that file's transaction changes of it isn't seen by others: what they wrote is to be in the file */
    void (*replaced)(const void *stream);           /* it has other bytes */
    bool (*goes_on)(void);                          /* what runs beside the requests; false if nothing could */
    bool (*passes)(LONGLONG until);                 /* the next that is due up to then comes; false if nothing is */
    void (*left)(void);                             /* what is left at the end of a run is told */
} KzModule;

/* Who looks on at a run: expectations, reports, and clients of a program that has its own. */
typedef struct KzObserver {
    void (*entered)(KzCallback callback, PFLT_FILTER filter);
    /* Whether its text is to be said. Without a text it was told of the same place before. */
    bool (*told)(const KzSaid *said, bool is_counted);
    void (*replied)(KzReply reply, NTSTATUS other, const uint8_t *bytes, size_t length);
    bool (*fails)(KzChoice what);
    void (*answered)(const char *call, NTSTATUS status); /* a driver's call: what it returned, which isn't a status of each */
} KzObserver;

/* Their states, all zeros. */
void kz_begin_modules(void);
void kz_end_modules(void);
void kz_free_modules(void);
void kz_filter_begins(PFLT_FILTER filter);
void kz_filter_unregisters(PFLT_FILTER filter);
void kz_filter_ends(PFLT_FILTER filter);
bool kz_has_any_of(PFLT_FILTER filter);
/* The same but for what that module keeps. */
bool kz_has_any_but(PFLT_FILTER filter, const KzModule *but);
/* The last module first: what stands on another one looks before it. */
void kz_memory_goes(const void *memory, size_t size);
void kz_operation_ends(KzOp *op);
bool kz_is_mapped(KzOp *op, const void *stream, uint64_t size);
void kz_object_let_go(const void *object);
void kz_stream_is_cut(const void *stream, uint64_t size);
void kz_stream_is_kept(const void *stream, KzFile *by);
void kz_stream_is_replaced(const void *stream);
bool kz_goes_on(void);
bool kz_passes(LONGLONG until);
void kz_tell_left(void);
void kz_entered(KzCallback callback, PFLT_FILTER filter);
bool kz_observe(const KzSaid *said, bool is_counted);
void kz_replied(KzReply reply, NTSTATUS other, const uint8_t *bytes, size_t length);
bool kz_fails_now(KzChoice what);
void kz_call_answered(const char *call, NTSTATUS status);

#endif
