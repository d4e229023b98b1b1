/* Expressions of names: `*` is any letters and `?` is one; of MS-DOS are `<`, any letters up to the last dot, `>`, one letter, or none at a dot or the end, and `"`, a dot or the end. */
#include "core/client.h"
#include "lib/upcase.h"

#include <ntifs.h>

/* Letters of 16 bits, or bytes. */
typedef struct {
    const void *letters;
    size_t length;
    bool is_wide;
} Text;

static WCHAR letter_at(Text text, size_t at)
{
    return text.is_wide ? ((const WCHAR *)text.letters)[at] : ((const UCHAR *)text.letters)[at];
}

static bool is_one_of(WCHAR letter, const char *letters)
{
    return letter && letter < 128 && strchr(letters, letter);
}

/* Where in the expression a name may have come to: a bit for each place, and one behind the last. */
typedef struct {
    uint8_t bits[(UINT16_MAX + 1) / 8 + 1];
} Places;

static bool has(const Places *places, size_t at)
{
    return places->bits[at / 8] >> at % 8 & 1;
}

static void set(Places *places, size_t at, bool is)
{
    uint8_t bit = (uint8_t)(1 << at % 8);
    places->bits[at / 8] = is ? places->bits[at / 8] | bit : places->bits[at / 8] & (uint8_t)~bit;
}

/* From where on the expression may stand for nothing. */
static size_t begin_of_nothing(Text expression)
{
    size_t at = expression.length;
    while (at > 0 && is_one_of(letter_at(expression, at - 1), "*<>\""))
        at--;
    return at;
}

/* How letters are compared: those of the name are made capital ones, or those of both, by a table or the usual one. */
typedef struct {
    bool is_loose, is_loose_in_both;
    const WCHAR *upper;
} Case;

static WCHAR raised(WCHAR letter, bool is_raised, const WCHAR *upper)
{
    return !is_raised ? letter : upper ? upper[letter] : kz_upcase(letter);
}

/* A letter of a name, and where it stands. */
typedef struct {
    WCHAR letter;
    bool is_last_dot, is_last;
} Taken;

/* What a letter of the expression does with one of a name: it is passed without it, stays after it, or is passed with it. */
typedef struct {
    bool skips, stays, passes;
} Step;

static Step step(WCHAR letter, Taken taken, bool is_end)
{
    bool is_dot = taken.letter == '.';
    switch (letter) {
    case '*':
        return (Step){.skips = true, .stays = true};
    case '<':
        return (Step){.skips = true, .stays = !taken.is_last_dot, .passes = taken.is_last_dot};
    case '>':
        return (Step){.skips = is_dot, .passes = !is_dot || (taken.is_last && is_end)};
    case '"':
        return (Step){.passes = is_dot};
    default:
        return (Step){.passes = letter == '?' || letter == taken.letter};
    }
}

/* All places go one letter on; from `nothing` on the expression may stand for nothing. */
static void take(Places *places, Text expression, size_t nothing, Taken taken, Case by)
{
    bool is_skipped = false, is_passed = false;
    for (size_t at = 0; at <= expression.length; at++) {
        bool is_here = at < expression.length && (has(places, at) || is_skipped);
        Step next = is_here ? step(raised(letter_at(expression, at), by.is_loose_in_both, by.upper), taken, at + 1 >= nothing) : (Step){0};
        set(places, at, next.stays || is_passed);
        is_skipped = next.skips;
        is_passed = next.passes;
    }
}

/* An empty expression is the one of an empty name, and of no other. */
static bool matches(Text expression, Text name, Case by)
{
    Places places;
    size_t dot = name.length, nothing = begin_of_nothing(expression);
    if (!name.length || !expression.length)
        return name.length == expression.length;
    memset(places.bits, 0, expression.length / 8 + 1);
    set(&places, 0, true);
    for (size_t at = 0; at < name.length; at++)
        dot = letter_at(name, at) == '.' ? at : dot;
    for (size_t at = 0; at < name.length; at++)
        take(&places, expression, nothing, (Taken){raised(letter_at(name, at), by.is_loose, by.upper), at == dot, at + 1 == name.length}, by);
    while (nothing <= expression.length && !has(&places, nothing))
        nothing++;
    return nothing <= expression.length;
}

static Text wide(PCUNICODE_STRING text)
{
    return (Text){text->Buffer, text->Length / sizeof(WCHAR), true};
}

static Text narrow(const ANSI_STRING *text)
{
    return (Text){text->Buffer, text->Length, false};
}

/* As in the kit the name's letters alone are made capital ones: the expression's have to be. */
BOOLEAN FsRtlIsNameInExpression(PUNICODE_STRING Expression, PUNICODE_STRING Name, BOOLEAN IgnoreCase, PWCH UpcaseTable)
{
    KZ_INSIDE_AS_DRIVER();
    return matches(wide(Expression), wide(Name), (Case){IgnoreCase, false, UpcaseTable});
}

BOOLEAN FsRtlIsNameInUnUpcasedExpression(PUNICODE_STRING Expression, PUNICODE_STRING Name, BOOLEAN IgnoreCase, PWCH UpcaseTable)
{
    KZ_INSIDE_AS_DRIVER();
    return matches(wide(Expression), wide(Name), (Case){IgnoreCase, IgnoreCase, UpcaseTable});
}

BOOLEAN FsRtlIsDbcsInExpression(PANSI_STRING Expression, PANSI_STRING Name)
{
    KZ_INSIDE_AS_DRIVER();
    return matches(narrow(Expression), narrow(Name), (Case){0});
}

BOOLEAN RtlIsNameInExpression(PCUNICODE_STRING Expression, PCUNICODE_STRING Name, BOOLEAN IgnoreCase, PWCH UpcaseTable)
{
    return FsRtlIsNameInExpression((PUNICODE_STRING)Expression, (PUNICODE_STRING)Name, IgnoreCase, UpcaseTable);
}

static BOOLEAN has_wild_cards(Text name)
{
    size_t at = 0;
    while (at < name.length && !is_one_of(letter_at(name, at), "*?<>\""))
        at++;
    return at < name.length;
}

BOOLEAN FsRtlDoesNameContainWildCards(PUNICODE_STRING Name)
{
    KZ_INSIDE_AS_DRIVER();
    return has_wild_cards(wide(Name));
}

BOOLEAN FsRtlDoesDbcsContainWildCards(PANSI_STRING Name)
{
    KZ_INSIDE_AS_DRIVER();
    return has_wild_cards(narrow(Name));
}
