/* What a driver prints: to where all is said, a piece at a time. */
#include "core/client.h"
#include "core/held.h"
#include "core/said.h"
#include "core/spell.h"
#include "core/told.h"
#include "lib/format.h"

typedef struct {
    size_t length;
    char text[512];
} Piece;

static void put_out(void *sink, WCHAR letter)
{
    Piece *piece = sink;
    if (piece->length + 5 > sizeof piece->text) {
        kz_put(KZ_SAID_BY_DRIVER, piece->text);
        piece->length = 0;
    }
    kz_put_utf8(piece->text, sizeof piece->text, &piece->length, letter != 127 && letter != KZ_MARK[0] ? letter : '?');
}

/* Whether a conversion takes wide text: the kit looks letters up in tables that can be paged out. */
static bool has_wide_text(PCSTR format)
{
    for (PCSTR at = strchr(format, '%'); at; at = strchr(at, '%')) {
        at += 1 + strspn(at + 1, "-+ #0123456789.*");
        bool is_long = *at == 'w' || *at == 'l';
        if (*at == 'S' || *at == 'C' || (is_long && at[1] && strchr("scZSC", at[1])))
            return true;
        at += *at != 0;
    }
    return false;
}

static void nowhere(void *sink, WCHAR letter)
{
    (void)sink, (void)letter;
}

/* A text without an end is told whether somebody reads what is printed or not. */
static void look_at_wide_text(PCSTR format, va_list *arguments)
{
    if (kz_irql() >= DISPATCH_LEVEL)
        kz_tell(KZM_IRQL, kz_me->place.call, "wide text is printed at IRQL %u; that may be done at PASSIVE_LEVEL (0)", kz_irql());
    if (kz_is_quiet)
        kz_format(nowhere, NULL, format, false, arguments);
}

ULONG vDbgPrintExWithPrefix(PCSTR Prefix, ULONG ComponentId, ULONG Level, PCSTR Format, va_list Arguments)
{
    (void)ComponentId, (void)Level;
    KZ_INSIDE_ALONE();
    Piece piece;
    va_list arguments;
    piece.length = 0;
    piece.text[0] = 0;
    va_copy(arguments, Arguments);
    if (kz_me->place.call && has_wide_text(Format))
        look_at_wide_text(Format, &arguments);
    if (!kz_is_quiet) { /* where nobody reads it, the driver's memory is read all the same */
        KzPut put = kz_is_deaf ? nowhere : put_out;
        for (; *Prefix; Prefix++)
            put(&piece, (UCHAR)*Prefix);
        kz_format(put, &piece, Format, false, &arguments);
        kz_put(KZ_SAID_BY_DRIVER, piece.text);
    }
    va_end(arguments);
    return (ULONG)STATUS_SUCCESS;
}

ULONG vDbgPrintEx(ULONG ComponentId, ULONG Level, PCSTR Format, va_list Arguments)
{
    return vDbgPrintExWithPrefix("", ComponentId, Level, Format, Arguments);
}

ULONG DbgPrint(PCSTR Format, ...)
{
    KZ_INSIDE_AS_DRIVER();
    va_list arguments;
    va_start(arguments, Format);
    vDbgPrintEx(DPFLTR_DEFAULT_ID, DPFLTR_INFO_LEVEL, Format, arguments);
    va_end(arguments);
    return (ULONG)STATUS_SUCCESS;
}

ULONG DbgPrintEx(ULONG ComponentId, ULONG Level, PCSTR Format, ...)
{
    KZ_INSIDE_AS_DRIVER();
    va_list arguments;
    va_start(arguments, Format);
    vDbgPrintEx(ComponentId, Level, Format, arguments);
    va_end(arguments);
    return (ULONG)STATUS_SUCCESS;
}
