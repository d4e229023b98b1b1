/* What is said: to where the scheduler puts it, and how a text is printed. */
#include "core/said.h"

#include "core/client.h"
#include "core/source.h"

#include <stdarg.h>

int kz_is_quiet;
bool kz_is_deaf;

void kz_say(KzKind kind, const char *format, ...)
{
    char text[1024];
    if (kz_is_quiet || (kz_is_deaf && kind != KZ_SAID_UNMET))
        return;
    va_list arguments;
    va_start(arguments, format);
    vsnprintf(text, sizeof text, format, arguments);
    va_end(arguments);
    kz_put(kind, text);
}

/* What is said goes where the scheduler puts it. */
void kz_put(KzKind kind, const char *text)
{
    kz_scheduler->said(&(KzSaid){.kind = kind, .text = text});
}

void kz_unmark(char *room, size_t size, const char *text)
{
    size_t used = 0;
    for (; *text && used + 1 < size; text++)
        if (*text != KZ_MARK[0])
            room[used++] = *text;
    room[used] = 0;
}

void kz_print(const KzSaid *said)
{
    char line[1800];
    if (said->kind == KZ_SAID_TOLD || said->kind == KZ_SAID_LIMIT || said->kind == KZ_SAID_AGAIN) {
        kz_readable(line, sizeof line, said->text);
        fputs(line, stdout);
        return;
    }
    for (const char *text = said->text; *text;) {
        size_t length = strcspn(text, KZ_MARK);
        fwrite(text, 1, length, stdout);
        text += length + (text[length] == KZ_MARK[0]);
    }
}
