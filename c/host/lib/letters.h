/* Texts of the host as the kit has them, and the other way round (core/spell.h). */
#ifndef KZ_LIB_LETTERS_H
#define KZ_LIB_LETTERS_H

#include "core/spell.h"

/* As the kit gives it: memory of exactly its length, with nothing behind it, or with a null. */
bool kz_give_name(PUNICODE_STRING to, const char *text, bool is_ended);
/* How long the whole is: it fits where that is less than the size. */
size_t kz_narrow(char *room, size_t size, PCUNICODE_STRING text);
/* Into letters of the kit: how many bytes they take, no more than twice the text's. */
ULONG kz_widen(WCHAR *room, const char *text);
/* By their letters, whatever the case of these: less than 0, 0 or more; no more than so many bytes. */
int kz_compare_texts(const char *a, const char *b, size_t most);
/* How many letters of the kit's that are. */
size_t kz_letters(const char *text);

#endif
