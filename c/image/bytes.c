/* The bytes of a binary's file, and what is wrong with it. */
#include "image/pe.h"

#include <stdarg.h>
#include <stdio.h>
#include <string.h>

bool kz_refuse(KzRefusal *why, const char *format, ...)
{
    va_list arguments;
    va_start(arguments, format);
    vsnprintf(why->text, sizeof why->text, format, arguments);
    va_end(arguments);
    for (char *at = why->text; *at; at++) /* names of the file are in it */
        *at = *at < ' ' || *at == 127 ? '?' : *at;
    return false;
}

uint8_t *kz_bytes_at(KzBytes bytes, uint64_t at, uint64_t size)
{
    return at <= bytes.size && size <= bytes.size - at ? bytes.start + at : NULL;
}

bool kz_copy(KzBytes bytes, uint64_t at, void *to, size_t size)
{
    const uint8_t *from = kz_bytes_at(bytes, at, size);
    if (from)
        memcpy(to, from, size);
    return from != NULL;
}

const char *kz_text_at(KzBytes bytes, uint64_t at, size_t most)
{
    if (at >= bytes.size)
        return NULL;
    size_t rest = bytes.size - at;
    return memchr(bytes.start + at, 0, rest < most ? rest : most) ? (const char *)bytes.start + at : NULL;
}
