/* Sections whose pages aren't always there: those that can be paged out, at DISPATCH_LEVEL; those of INIT, once DriverEntry has returned. */
#ifndef KZ_IMAGE_ABSENT_H
#define KZ_IMAGE_ABSENT_H

#include "image/image.h"

/* They are watched from now on, if an image has some. */
void kz_watch_absent(void);
/* Whether that address isn't there now. */
bool kz_is_absent(uint64_t address);
/* Whether it wasn't there a moment ago, by another thread's IRQL, and is by now. */
bool kz_is_back(uint64_t address, bool is_write, bool is_run);
/* The driver touched it, at that place of its code: it is told, and is there again. */
void kz_tell_absent(uint64_t address, uint64_t rip);
void kz_open_absent(uint64_t address);
/* Whether the host can read it now. What was paged out is there again; what is gone isn't. */
bool kz_may_read(const KzImage *image, const KzSection *section);
/* Sections are there or not as the variables say that the explorer put back. */
void kz_close_absent(void);
/* An access that the explorer sees: of a section that can be paged out, and that the driver writes. */
void kz_look_at_paged(const KzAccess *access);

#endif
