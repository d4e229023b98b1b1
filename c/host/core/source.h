/* Lines of sources, by the debug information of the program: addr2line of the binutils is asked, once for each address, and only when a line is told. */
#ifndef KZ_CORE_SOURCE_H
#define KZ_CORE_SOURCE_H

#include "host.h"

/* The line of the driver's source in which the code stands before that address of the program, as file.c:12; false if it isn't known. Of a function's own address it is where it begins. */
bool kz_find_source(uintptr_t address, char *room, size_t size);
/* The same with the file's whole path, if that is known. */
bool kz_find_path(uintptr_t address, char *room, size_t size);
/* A file of the kit's headers, or of the host: a function of theirs that was put in place of its call isn't said. */
bool kz_is_left_out(const char *path);
/* The same by a program as addr2line is one, of a file that it reads. */
bool kz_ask_line(const char *reader, const char *program, uintptr_t address, char *line, size_t size);
/* The whole path of the file of which the code at that address of a program is, left out or not. */
bool kz_ask_path(const char *program, uintptr_t address, char *path, size_t size);
/* Behind a line, each with an address of which it is: the lines that its code was put into, and those that called it. They are said as `, from file.c:9`, two of them at most. */
#define KZ_FROM "\x1c"
size_t kz_read_callers(const char *text, char *room, size_t size);
/* The address as it is in the program's file. */
uintptr_t kz_in_file(const void *address);
/* A text for people: without its marks, and with lines of sources for their addresses. */
void kz_readable(char *room, size_t size, const char *text);

#endif
