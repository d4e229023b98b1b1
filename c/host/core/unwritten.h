/* Memory that nobody wrote yet has bytes that a run may choose. */
#ifndef KZ_CORE_UNWRITTEN_H
#define KZ_CORE_UNWRITTEN_H

#include <stdbool.h>
#include <stddef.h>
#include <stdint.h>

/* From now on it has this one, and what goes to programs is said. */
void kz_fill_with(uint8_t byte);
bool kz_is_filled(void);
/* The byte that is usual, or the one that was chosen; in a room for an answer another one, so that what was copied there shows. */
int kz_unwritten(int usual);
int kz_unwritten_room(void);
/* A driver's function is about to be called, or to go on: so has the stack below. */
void kz_fill_stack(void);
/* A driver gives a program these bytes; or changed those of a program's own; or left something in a room for an answer, behind what it says is there. */
void kz_say_given(const char *how, const void *bytes, size_t size);
void kz_say_changed(const char *how, const void *bytes, const void *before, size_t size);
void kz_say_left(const void *room, size_t said, size_t size);

#endif
