/* Words of a line: numbers, ids, bytes, names and altitudes, as fltscript reads them. */
#include "orders.h"

OrText or_text(const char *text)
{
    return (OrText){text, strlen(text)};
}

bool or_same(OrText one, OrText other)
{
    return one.length == other.length && (!one.length || !memcmp(one.at, other.at, one.length));
}

bool or_is(OrText word, const char *text)
{
    return or_same(word, or_text(text));
}

OrText or_cut(OrText *text, char at)
{
    const char *end = text->length ? memchr(text->at, at, text->length) : NULL;
    OrText first = {text->at, end ? (size_t)(end - text->at) : text->length};
    size_t gone = first.length + (end != NULL);
    *text = (OrText){text->at + gone, text->length - gone};
    return first;
}

static bool is_space(char byte)
{
    return byte == ' ' || (byte >= '\t' && byte <= '\r');
}

OrText or_stripped(OrText text)
{
    for (; text.length && is_space(*text.at); text.at++)
        text.length--;
    while (text.length && is_space(text.at[text.length - 1]))
        text.length--;
    return text;
}

OrText or_word(OrText *text)
{
    OrText word = or_stripped(*text);
    size_t length = 0;
    while (length < word.length && !is_space(word.at[length]))
        length++;
    *text = (OrText){word.at + length, word.length - length};
    return (OrText){word.at, length};
}

bool or_number(OrText word, uint64_t *number)
{
    *number = 0;
    for (size_t at = 0; at < word.length; at++) {
        uint64_t digit = (uint64_t)(word.at[at] - '0');
        if (word.at[at] < '0' || digit > 9 || __builtin_mul_overflow(*number, 10, number) || __builtin_add_overflow(*number, digit, number))
            return false;
    }
    return word.length > 0;
}

bool or_id(OrText word, char letter, uint64_t *number)
{
    return word.length && *word.at == letter && or_number((OrText){word.at + 1, word.length - 1}, number);
}

static int digit_of(char byte)
{
    return byte >= '0' && byte <= '9' ? byte - '0' : byte >= 'a' && byte <= 'f' ? byte - 'a' + 10 : -1;
}

bool or_hex(OrText word, uint8_t *bytes, size_t *length)
{
    *length = 0;
    if (or_is(word, "-"))
        return true;
    for (; *length < word.length / 2; ++*length) {
        int high = digit_of(word.at[*length * 2]), low = digit_of(word.at[*length * 2 + 1]);
        if (high < 0 || low < 0)
            return false;
        bytes[*length] = (uint8_t)(high << 4 | low);
    }
    return word.length && word.length % 2 == 0;
}

static bool is_name_byte(char byte)
{
    return (byte >= 'a' && byte <= 'z') || (byte >= 'A' && byte <= 'Z') || (byte >= '0' && byte <= '9') || byte == '_' || byte == '-';
}

bool or_is_name(OrText word)
{
    for (size_t at = 0; at < word.length; at++)
        if (!is_name_byte(word.at[at]))
            return false;
    return word.length && word.length <= 32;
}

bool or_is_altitude(OrText word)
{
    size_t digits = 0;
    for (size_t at = 0; at < word.length; at++)
        if (word.at[at] >= '0' && word.at[at] <= '9')
            digits++;
        else if (word.at[at] != '.')
            return false;
    return digits && word.length - digits <= 1 && word.length <= 64;
}

static OrText without_zeros_before(OrText digits)
{
    for (; digits.length && *digits.at == '0'; digits.at++)
        digits.length--;
    return digits;
}

static OrText without_zeros_behind(OrText digits)
{
    while (digits.length && digits.at[digits.length - 1] == '0')
        digits.length--;
    return digits;
}

/* Below zero, zero or above it. The longer whole number is higher; then digits decide, and of fractions that agree so far the longer one. */
int or_compared(OrText altitude, OrText other)
{
    OrText whole = without_zeros_before(or_cut(&altitude, '.')), whole_of_other = without_zeros_before(or_cut(&other, '.'));
    OrText fraction = without_zeros_behind(altitude), fraction_of_other = without_zeros_behind(other);
    size_t shorter = fraction.length < fraction_of_other.length ? fraction.length : fraction_of_other.length;
    if (whole.length != whole_of_other.length)
        return whole.length < whole_of_other.length ? -1 : 1;
    int by_whole = memcmp(whole.at, whole_of_other.at, whole.length), by_fraction = memcmp(fraction.at, fraction_of_other.at, shorter);
    if (by_whole || by_fraction)
        return by_whole ? by_whole : by_fraction;
    return (fraction.length > fraction_of_other.length) - (fraction.length < fraction_of_other.length);
}
