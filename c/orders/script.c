/* A script from its first line to its last: a session is opened, lines are answered, it is closed. */
#include "script.h"

#include <stdarg.h>

void *or_grown(void *items, size_t count, size_t *room, size_t size)
{
    if (count < *room)
        return items;
    *room = *room ? *room * 2 : 16;
    items = realloc(items, *room * size);
    if (!items)
        or_no_memory();
    return items;
}

/* The lists keep their memory from one run to the next. */
void or_open(OrScript *script)
{
    OrPlace nowhere = {OR_IDLE, OR_NONE, OR_NONE, OR_NONE, OR_NONE};
    script->filters.count = script->instances.count = script->operations.count = script->flights.count = script->streams.count = 0;
    script->handles.count = script->contexts.count = script->carried.count = script->failing.count = 0;
    script->volumes = script->births = script->calls = script->failures = 0;
    for (size_t at = 0; at < OR_WORKERS; at++)
        script->places[at] = nowhere;
    if (!script->answer) {
        script->answer = malloc(2 * OR_BYTES + 128);
        script->bytes = malloc(OR_BYTES);
    }
    if (!script->answer || !script->bytes || kazdrin_open(&script->session))
        or_no_memory();
}

void or_close(OrScript *script)
{
    kazdrin_close(&script->session);
}

void or_say(OrScript *script, const char *format, ...)
{
    va_list words;
    va_start(words, format);
    script->length = (size_t)vsnprintf(script->answer, 128, format, words);
    va_end(words);
}

/* Behind what was said, in hexadecimal. */
void or_say_bytes(OrScript *script, size_t length)
{
    static const char digits[] = "0123456789abcdef";
    char *at = script->answer + script->length;
    if (length > OR_BYTES)
        or_wrong(0, "an answer has %zu bytes, and %d are the most here", length, OR_BYTES);
    if (!length)
        *at++ = '-';
    for (size_t byte = 0; byte < length; byte++) {
        *at++ = digits[script->bytes[byte] >> 4];
        *at++ = digits[script->bytes[byte] & 15];
    }
    script->length = (size_t)(at - script->answer);
}

void or_refuse(OrScript *script, uint32_t status, uint64_t number)
{
    if (status == KZS_NO_MEMORY)
        or_no_memory();
    if (status == KZS_BUSY)
        or_say(script, "no 34 %llu", (unsigned long long)number);
    else
        or_say(script, "no %u", status);
}

uint32_t or_step(OrScript *script, const OrAsked *asked, KazdrinTold *told)
{
    uint32_t status = kazdrin_step(&script->session, &asked->event, asked->bytes ? asked->bytes : (const uint8_t *)"", asked->length, told, script->bytes, OR_BYTES);
    if (status == KZS_NO_MEMORY)
        or_no_memory();
    return status;
}

/* Its words are divided by single spaces. No command has more than eight. */
OrText or_run(OrScript *script, OrText line)
{
    OrText words[8], rest = line;
    size_t count = 0;
    bool is_more = true;
    while (is_more && count < 8) {
        is_more = memchr(rest.at, ' ', rest.length) != NULL;
        words[count++] = or_cut(&rest, ' ');
    }
    uint32_t status = is_more || line.length > OR_LONGEST ? KZS_BAD_REQUEST : or_do(script, words, count);
    if (status)
        or_refuse(script, status, 0);
    return (OrText){script->answer, script->length};
}
