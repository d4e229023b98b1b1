/* Contexts: their references, and cleanups that are due. */
#ifndef KZ_MANAGER_CONTEXT_H
#define KZ_MANAGER_CONTEXT_H

#include "host.h"
#include "core/place.h"

/* A reference that the host keeps for the driver, and where it was left. */
typedef struct KzLeft {
    struct KzLeft *next;
    KzPlace place;
} KzLeft;

typedef struct KzContext {
    struct KzContext *next, *before;
    struct KzContext *same; /* the next one at the same place of the table by address */
    PVOID body;
    uint32_t slot, generation;
    uint8_t kind;
    bool is_known; /* to the manager: not before it is set, if no callback of an instance allocated it, and not once it was cleaned up there */
    bool is_in_cleanup, is_told;
    bool is_linked; /* to a file, by the host */
    FLT_CONTEXT_TYPE type;
    PFLT_FILTER filter;
    const FLT_CONTEXT_REGISTRATION *how;
    KzLeft *kept;
} KzContext;

extern const char *const kz_context_kinds[];
/* NULL if none has that body; the same, and it is told. */
KzContext *kz_context_with(PVOID body);
KzContext *kz_context_of(PVOID body, const char *call);
/* One that the manager knows, its body, and that for a callback that gets a reference. */
KzContext *kz_known_context(uint32_t slot, uint32_t generation);
PVOID kz_body_of(uint32_t slot, uint32_t generation);
PVOID kz_taken_body(uint32_t slot, uint32_t generation);
/* The manager gets to know it, and the callback holds it. */
uint32_t kz_make_known(KzContext *context);
/* A reference that the host keeps for the driver. */
void kz_keep_reference(KzContext *context, const KzPlace *place);
void kz_drop_reference(KzContext *context);
/* Whether that worker of the manager holds a reference. */
bool kz_holds(uint8_t worker, const KzContext *context);
/* It goes if nobody has it: of those that the manager doesn't know. */
void kz_end_unused(KzContext *context);
void kz_clean_up(void);
uint64_t kz_cleaned(void); /* how many contexts were, so far */
void kz_use_due(void);
void kz_tell_kept(PFLT_FILTER filter);
extern const struct KzModule kz_context_module;

#endif
