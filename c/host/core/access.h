/* Memory that isn't everybody's: what can be paged out, a caller's own buffer, what the manager hands out. */
#ifndef KZ_CORE_ACCESS_H
#define KZ_CORE_ACCESS_H

#include "core/piece.h"

/* Its memory is of that kind from now on; a caller's is of that process. */
void kz_own(void *memory, KzOwner owner, uint64_t process);
/* It is given back: whoever looks at it then may. */
void kz_disown(KzPiece *piece);
/* An MDL describes pages that are locked, or not any more: they are there at any IRQL, and in each process. */
void kz_map_pages(const void *address, bool is_locked);
/* The manager writes what it has handed out. */
void kz_open_owned(void *memory);
/* A driver's code goes on, or has returned: pages that it may not touch are shut meanwhile. */
void kz_shut_owned(void);
void kz_open_all_owned(void);
/* Whether the driver's code stands in a try block of this callback; one that has a finally block alone counts too. */
bool kz_is_in_try(void);
/* The call may raise an exception, which such a block has to take: that none stands around it is told. */
void kz_must_be_in_try(const char *call, const void *from, const char *why);
/* Such a block ends: what its program may free meanwhile is shut again. */
void kz_shut_callers(void);
/* Whether the driver's variables there can be paged out. */
bool kz_is_paged(const void *address);
/* A call of the kit over a driver's memory touches that in its place. What else the host does there is its own business. */
bool kz_is_in_drivers_place(void);
/* The piece there that is a caller's own; NULL if it is none. */
KzPiece *kz_callers_at(const void *address);
/* What the kernel itself waits for or spins on may not be paged out: that it can be is told. */
void kz_must_be_there(const void *object, const char *kind, const char *call);
/* Where the driver's own code stands there, or makes the call of the C library that does; NULL if neither. */
const void *kz_drivers_code(const void *code, const void *caller);
/* A touch of shut pages: whether they are one of these. Where it may not be, that is told, and the pages are open until the IRQL or the process is another one. */
bool kz_touched_owned(const KzTouched *touch);
/* The explorer has no such pages: each access of a driver's code is looked at. */
void kz_look_at_code(const void *code);
void kz_look_at_owned(const void *address, size_t size, const void *from, bool is_written);
extern const struct KzModule kz_access_module;

#endif
