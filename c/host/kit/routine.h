/* Routines that a driver registers for what happens beside its operations: in the order of their registration, or of their altitudes. */
#ifndef KZ_KIT_ROUTINE_H
#define KZ_KIT_ROUTINE_H

#include "host.h"
#include "core/place.h"

typedef enum { KZR_PROCESS, KZR_PROCESS_EX, KZR_THREAD, KZR_IMAGE, KZR_REGISTRY, KZR_OBJECT } KzRoutineKind;

typedef struct KzRoutine {
    struct KzRoutine *next;
    KzRoutineKind kind;
    PVOID routine;     /* its function; or what names it */
    PVOID context;     /* freed with it, where it is of objects */
    char altitude[68]; /* empty if it has none */
    PFLT_FILTER filter;
    KzPlace place;   /* where it was registered */
    uint64_t number; /* in the order of their registration */
    unsigned running;
    bool is_gone; /* it isn't called any more: whoever takes it off waits until it has returned */
} KzRoutine;

/* Who is called for one event: others may be registered and taken off meanwhile. */
enum { KZ_MOST_ROUTINES = 64 };
typedef struct {
    uint64_t numbers[KZ_MOST_ROUTINES];
    unsigned count;
} KzCallees;

/* While one is called. */
typedef struct {
    KzRoutine *one;
    KzPlace before;
    uint8_t worker;
    unsigned depth;
} KzRoutineCall;

/* Refused if it is there already, but for one of the registry, if another one of its kind has its altitude, or for want of memory. */
NTSTATUS kz_add_routine(const KzRoutine *wanted, const char *call, KzRoutine **made);
/* NULL if none is there, or it is being taken off. */
KzRoutine *kz_routine_of(KzRoutineKind kind, PVOID routine);
void kz_take_off_routine(KzRoutine *gone);
/* The highest altitude first. */
void kz_callees(KzRoutineKind first, KzRoutineKind last, KzCallees *callees);
/* NULL if it was taken off. */
KzRoutine *kz_callee(const KzCallees *callees, unsigned at);
KzRoutineCall kz_begin_routine(KzRoutine *one, const void *function);
void kz_end_routine(KzRoutineCall *call);
extern const struct KzModule kz_routine_module;

#endif
