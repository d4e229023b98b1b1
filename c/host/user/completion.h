/* Operations that complete later: their overlapped structures, events and completion ports. */
#ifndef KZ_USER_COMPLETION_H
#define KZ_USER_COMPLETION_H

#include "host.h"
#include "user/program.h"

/* The operation begins: it is pending, and its event is reset. */
void kz_begin_overlapped(KzObject *object, KzOverlapped *overlapped);
/* It is over inside its call. One that failed, and never pended, is told by the call alone: its structure, its event and its port are as they were. */
void kz_end_overlapped(KzObject *object, KzOverlapped *overlapped, uint32_t bytes, NTSTATUS status);
void kz_complete(KzObject *object, KzOverlapped *overlapped, uint32_t bytes, NTSTATUS status);

#endif
