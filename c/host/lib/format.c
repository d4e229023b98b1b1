/* The kit's printf: one walk over a format for all calls, whose letters go to a sink. A long is the kit's, of 32 bits. */
#include "lib/format.h"

#include "core/client.h"
#include "core/piece.h"

typedef struct {
    KzPut put;
    void *sink;
    bool is_wide; /* the format: then %s is wide, and %S isn't */
} Output;

/* One conversion, as it was read. */
typedef struct {
    char flags[8];
    int width, precision; /* -1: none */
    char size;            /* 'w' wide, 'h' narrow or short, 'H' a char, 'q' 64 bits, or 0 */
    char kind;
} Conversion;

static inline int letter_at(const void *format, bool is_wide, size_t at)
{
    return is_wide ? ((const WCHAR *)format)[at] : ((const char *)format)[at] & 255;
}

static void put_padded(const Output *output, const Conversion *one, const void *text, bool is_wide, size_t length)
{
    int padding = one->width > (int)length ? one->width - (int)length : 0;
    bool is_left = strchr(one->flags, '-') != NULL;
    for (int at = 0; !is_left && at < padding; at++)
        output->put(output->sink, ' ');
    for (size_t at = 0; at < length; at++)
        output->put(output->sink, (WCHAR)letter_at(text, is_wide, at));
    for (int at = 0; is_left && at < padding; at++)
        output->put(output->sink, ' ');
}

static void put_text(const Output *output, const Conversion *one, const void *text, bool is_wide)
{
    if (!text) {
        text = "(null)";
        is_wide = false;
    }
    if (is_wide && one->precision < 0)
        kz_check_text_from(text, kz_me->place.call, kz_me->place.from);
    size_t length = 0;
    while ((one->precision < 0 || length < (size_t)one->precision) && letter_at(text, is_wide, length))
        length++;
    put_padded(output, one, text, is_wide, length);
}

/* A counted string. */
static void put_counted(const Output *output, const Conversion *one, va_list *arguments)
{
    const UNICODE_STRING *text = va_arg(*arguments, const UNICODE_STRING *);
    bool is_wide = one->size == 'w';
    if (!text || !text->Buffer) {
        put_padded(output, one, text ? "" : "(null)", false, text ? 0 : 6);
        return;
    }
    size_t length = is_wide ? text->Length / sizeof(WCHAR) : text->Length;
    if (one->precision >= 0 && (size_t)one->precision < length)
        length = (size_t)one->precision;
    put_padded(output, one, text->Buffer, is_wide, length);
}

static long long number_of(const Conversion *one, va_list *arguments)
{
    bool is_signed = one->kind == 'd' || one->kind == 'i';
    if (one->size == 'q')
        return va_arg(*arguments, long long);
    int number = va_arg(*arguments, int);
    if (one->size == 'h')
        return is_signed ? (long long)(short)number : (long long)(unsigned short)number;
    if (one->size == 'H')
        return is_signed ? (long long)(signed char)number : (long long)(unsigned char)number;
    return is_signed ? (long long)number : (long long)(unsigned)number;
}

static void put_number(const Output *output, const Conversion *one, va_list *arguments)
{
    char plain[40], made[160];
    int width = one->width > 100 ? 100 : one->width, precision = one->precision > 60 ? 60 : one->precision, length;
    bool is_floating = strchr("feEgGa", one->kind) != NULL;
    int used = snprintf(plain, sizeof plain, "%%%s", one->flags);
    if (width >= 0)
        used += snprintf(plain + used, sizeof plain - (size_t)used, "%d", width);
    if (precision >= 0)
        used += snprintf(plain + used, sizeof plain - (size_t)used, ".%d", precision);
    snprintf(plain + used, sizeof plain - (size_t)used, is_floating ? "%c" : "ll%c", one->kind);
    if (is_floating)
        length = snprintf(made, sizeof made, plain, va_arg(*arguments, double));
    else
        length = snprintf(made, sizeof made, plain, number_of(one, arguments));
    for (int at = 0; at < length && at < (int)sizeof made - 1; at++)
        output->put(output->sink, (WCHAR)(made[at] & 255));
}

static void put_one(const Output *output, const Conversion *one, va_list *arguments)
{
    bool is_other = one->kind == 'S' || one->kind == 'C';
    bool is_wide = one->size == 'w' || (one->size != 'h' && output->is_wide != is_other);
    switch (one->kind) {
    case 's':
    case 'S':
        put_text(output, one, va_arg(*arguments, const void *), is_wide);
        break;
    case 'c':
    case 'C': {
        WCHAR letter = (WCHAR)va_arg(*arguments, int);
        put_padded(output, one, &letter, true, 1);
        break;
    }
    case 'Z':
        put_counted(output, one, arguments);
        break;
    case 'p': /* an address differs from run to run */
        put_text(output, one, va_arg(*arguments, void *) ? "(pointer)" : "(null)", false);
        break;
    case 'n':
        (void)va_arg(*arguments, void *);
        break;
    default:
        put_number(output, one, arguments);
    }
}

/* A number in the format, or one of the arguments for `*`. -1 if there is none. */
static int count_at(const void *format, bool is_wide, size_t *at, va_list *arguments)
{
    int count = -1;
    if (letter_at(format, is_wide, *at) == '*') {
        ++*at;
        return va_arg(*arguments, int);
    }
    for (int letter = letter_at(format, is_wide, *at); letter >= '0' && letter <= '9'; letter = letter_at(format, is_wide, ++*at))
        if (count < 100000)
            count = (count < 0 ? 0 : count) * 10 + letter - '0';
    return count;
}

static char size_at(const void *format, bool is_wide, size_t *at)
{
    char size = 0;
    for (;; ++*at) {
        int letter = letter_at(format, is_wide, *at), next = letter ? letter_at(format, is_wide, *at + 1) : 0;
        if (letter == 'h')
            size = size == 'h' ? 'H' : 'h';
        else if (letter == 'l')
            size = size == 'l' ? 'q' : 'l';
        else if (letter == 'w')
            size = 'w';
        else if (letter == 'L') /* of a long double alone */
            continue;
        else if (letter == 'z' || letter == 'j' || letter == 't')
            size = 'q';
        else if (letter == 'I' && next == '3')
            *at += 2;
        else if (letter == 'I') {
            size = 'q';
            *at += next == '6' ? 2 : 0;
        } else
            return size;
    }
}

void kz_format(KzPut put, void *sink, const void *format, bool is_wide, va_list *arguments)
{
    Output output = {put, sink, is_wide};
    for (size_t at = 0; letter_at(format, is_wide, at);) {
        int letter = letter_at(format, is_wide, at++);
        if (letter != '%') {
            put(sink, (WCHAR)letter);
            continue;
        }
        Conversion one = {.width = -1, .precision = -1};
        size_t flags = 0;
        for (letter = letter_at(format, is_wide, at); letter && strchr("-+ #0", letter); letter = letter_at(format, is_wide, ++at))
            if (flags < sizeof one.flags - 1)
                one.flags[flags++] = (char)letter;
        one.width = count_at(format, is_wide, &at, arguments);
        if (one.width < -1) {
            one.width = -one.width;
            memcpy(one.flags, "-", 2);
        }
        if (letter_at(format, is_wide, at) == '.') {
            at++;
            one.precision = count_at(format, is_wide, &at, arguments);
            if (one.precision < 0)
                one.precision = 0;
        }
        one.size = size_at(format, is_wide, &at);
        one.kind = (char)letter_at(format, is_wide, at);
        if (!one.kind)
            return;
        at++;
        if (one.size == 'l' && strchr("sScCZ", one.kind))
            one.size = 'w';
        if (one.kind == '%')
            put(sink, '%');
        else if (strchr("sScCZpndiuxXofeEgGa", one.kind))
            put_one(&output, &one, arguments);
    }
}
