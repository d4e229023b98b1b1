/* Frames of the stack: which of the drivers' functions called which. */
#ifndef KZ_CORE_FRAME_H
#define KZ_CORE_FRAME_H

#include "host.h"

/* Code of a driver whose source was compiled. */
bool kz_is_drivers_code(const void *address);
/* The frame's function was called, by others in between, from there: where those were called that the code there is in. None if it isn't a driver's. */
void kz_note_callers(const void *callers[2], const void *frame, const void *from);
/* Where the frame has that it returns there; NULL if it isn't a driver's. */
const void **kz_return_to(const void *frame, const void *from);
/* The same of the function itself whose frame it is, as far as that is one: the stack begins there. */
void kz_note_callers_of(const void *callers[2], const void *frame, const void *stack);
/* Code that isn't a driver's own stands with that stack: where a driver called it; NULL if none did. */
const void *kz_drivers_call(const void *stack);

#endif
