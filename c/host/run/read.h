/* Words of a request as numbers, bytes and things: false where they are none, and then why is noted. */
#ifndef KZ_RUN_READ_H
#define KZ_RUN_READ_H

#include "host.h"

bool kz_read_number(const char *word, uint64_t limit, uint64_t *number);
/* Where a write is: `end` is the end of the file. */
bool kz_read_place(const char *word, uint64_t *place);
bool kz_read_hex(const char *word, uint8_t *bytes, size_t *length);
bool kz_read_filter(const char *word, uint64_t *number);
bool kz_read_volume(const char *word, uint64_t *number);
bool kz_read_instance(const char *word, uint64_t *number);
bool kz_read_handle(const char *word, uint64_t *number);
bool kz_is_name(const char *word);
void kz_name_handle(const char *word, uint64_t handle);
/* The same once an operation that waits has opened it. */
void kz_name_later(const char *word, uint64_t operation);
void kz_name_given(uint64_t operation, uint64_t handle);
/* Notes why a word isn't understood, for the thread that reads it: false. */
__attribute__((format(printf, 1, 2))) bool kz_refuse_word(const char *format, ...);
void kz_forget_refused_word(void);
/* What was noted last, with `: ` before it; empty if nothing was. */
const char *kz_refused_word(void);

#endif
