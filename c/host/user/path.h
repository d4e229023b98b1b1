/* Names of files as a program says them. */
#ifndef KZ_USER_PATH_H
#define KZ_USER_PATH_H

#include "host.h"

/* Room for any name of 260 letters. */
enum { KZ_PROGRAM_PATH = 1400 };
/* In the host's letters, with `/` for either separator. What is longer is cut at the room's end, and longer than any path. */
void kz_letters_of(char *room, size_t size, const char *name);
void kz_letters_of_wide(char *room, size_t size, const WCHAR *name);
/* Without `.` and `..`, without dots and blanks at its end: as RtlDosPathNameToNtPathName makes it. What begins with `//?/`, `//./` or `/??/` stays as it is. */
void kz_plain_path(char *path);
/* What FindFirstFile asks the file system for, by the last part of its name; empty if nothing is left of it. */
void kz_search_expression(char *room, size_t size, const char *typed);

#endif
