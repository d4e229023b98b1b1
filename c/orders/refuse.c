/* How the program ends where it can't go on. */
#include "orders.h"

#include <stdarg.h>

const char *or_file = "";

_Noreturn void or_no_memory(void)
{
    fprintf(stderr, "explore: %s: there is no memory for more\n", or_file);
    exit(1);
}

_Noreturn void or_wrong(unsigned line, const char *format, ...)
{
    va_list words;
    va_start(words, format);
    fprintf(stderr, "explore: %s: ", or_file);
    if (line)
        fprintf(stderr, "line %u: ", line);
    vfprintf(stderr, format, words);
    fputc('\n', stderr);
    va_end(words);
    exit(2);
}
