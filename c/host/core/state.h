/* The host's one state, and its calls of the manager. */
#ifndef KZ_CORE_STATE_H
#define KZ_CORE_STATE_H

#include "host.h"

/* What came of an event. */
typedef struct {
    uint32_t status; /* 0, or that with which the event was refused */
    KazdrinTold told;
} KzTold;

KzTold kz_event(uint8_t worker, KazdrinEvent event);
/* An event that is handed a text or bytes. */
KzTold kz_event_with(uint8_t worker, KazdrinEvent event, const void *bytes, size_t length);
/* One that answers with bytes: they go into the caller's room, and told.length says how many there are. */
KzTold kz_event_into(uint8_t worker, KazdrinEvent event, uint8_t *room, size_t size);
/* The worker of the manager that the client is in. */
uint8_t kz_worker(void);
uint8_t kz_helper(void);
bool kz_has_helpers(void); /* for one more operation that may stay */
void kz_helped(uint8_t worker);
/* What was in the way of the first event that was refused with 34 since it was forgotten. */
void kz_forget_busy(void);
void kz_note_busy(const KazdrinEvent *event, uint64_t number);

#endif
