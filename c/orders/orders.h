/* Every order in which the threads of a scenario of scripts can meet: what the files of this folder share (docs/SCRIPT.md, "Every order of threads"). */
#ifndef ORDERS_H
#define ORDERS_H

#ifndef _GNU_SOURCE
#define _GNU_SOURCE
#endif

#include "include/kazdrin.h"

#include <stdbool.h>
#include <stddef.h>
#include <stdint.h>
#include <stdio.h>
#include <stdlib.h>
#include <string.h>

/* A piece of a text that stays. */
typedef struct {
    const char *at;
    size_t length;
} OrText;

/* Ends the program: with 1 where memory is refused, with 2 where a scenario isn't right. The line's number is 0 where there is none. */
extern const char *or_file; /* the scenario, for what is said */
_Noreturn void or_no_memory(void);
_Noreturn void or_wrong(unsigned line, const char *format, ...) __attribute__((format(printf, 2, 3)));

/* A list that grows. It is emptied by its count, and keeps its memory. */
#define OR_LIST(type) \
    struct { \
        type *at; \
        size_t count, room; \
    }
#define OR_ADD(list) ((list).at = or_grown((list).at, (list).count, &(list).room, sizeof *(list).at), &(list).at[(list).count++])
void *or_grown(void *items, size_t count, size_t *room, size_t size);

/* words.c */
OrText or_text(const char *text);
bool or_same(OrText one, OrText other);
bool or_is(OrText word, const char *text);
/* What stands before the first such byte; the rest, if any, is left behind `text`. */
OrText or_cut(OrText *text, char at);
OrText or_stripped(OrText text);
OrText or_word(OrText *text);
bool or_number(OrText word, uint64_t *number);
bool or_id(OrText word, char letter, uint64_t *number);
bool or_hex(OrText word, uint8_t *bytes, size_t *length);
bool or_is_name(OrText word);
bool or_is_altitude(OrText word);
int or_compared(OrText altitude, OrText other);

#endif
