/* Altitudes as decimal numbers of any length. */
#include "manager/altitude.h"

/* Altitudes as decimal numbers of any length: -1, 0 or 1. */
int kz_compare_altitudes(const char *a, const char *b)
{
    a += strspn(a, "0");
    b += strspn(b, "0");
    size_t whole_a = strcspn(a, "."), whole_b = strcspn(b, ".");
    if (whole_a != whole_b)
        return whole_a < whole_b ? -1 : 1;
    while (*a || *b) {
        char digit_a = *a ? *a++ : '0', digit_b = *b ? *b++ : '0';
        digit_a = digit_a == '.' ? '0' : digit_a;
        digit_b = digit_b == '.' ? '0' : digit_b;
        if (digit_a != digit_b)
            return digit_a < digit_b ? -1 : 1;
    }
    return 0;
}
