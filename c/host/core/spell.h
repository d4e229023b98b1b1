/* Letters beyond ASCII. The manager's names are ASCII from the space to `~`: another letter of the kit's, and a `|`, stands in the host's texts as `|` and four digits, and the kit's `\\` as `/`.
 * Windows has no `|` in names of files. */
#ifndef KZ_CORE_SPELL_H
#define KZ_CORE_SPELL_H

#include "host.h"

/* One of the kit's, and how many bytes it takes. */
size_t kz_take_letter(const char *text, WCHAR *letter);
/* Behind what is there, if it fits; the count grows all the same. */
void kz_put_letter(char *room, size_t size, size_t *used, WCHAR letter);
/* As a person reads it, by UTF-8. */
void kz_spell(char *room, size_t size, const char *text);
/* One letter of the kit's behind a text of UTF-8; the second half of a pair takes its first one along. */
void kz_put_utf8(char *room, size_t size, size_t *used, WCHAR letter);
/* From UTF-8. False if it is none, or doesn't fit. */
bool kz_unspell(char *room, size_t size, const char *text);
/* The same of paths of another system: letters that Windows has in no name, `"*<>?|:\\`, are U+F000 and the letter here, as mounts of other systems have them. */
void kz_spell_outside(char *room, size_t size, const char *path);
bool kz_unspell_outside(char *room, size_t size, const char *path);

#endif
