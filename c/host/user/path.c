/* Names of files as a program says them. */
#include "user/path.h"

#include "lib/letters.h"

void kz_letters_of(char *room, size_t size, const char *name)
{
    size_t used = 0;
    room[0] = 0;
    for (; *name; name++)
        kz_put_letter(room, size, &used, (UCHAR)*name);
}

void kz_letters_of_wide(char *room, size_t size, const WCHAR *name)
{
    UNICODE_STRING wide;
    RtlInitUnicodeString(&wide, name);
    kz_narrow(room, size, &wide);
}

static bool is_plain_already(const char *path)
{
    return strncmp(path, "//?/", 4) == 0 || strncmp(path, "//./", 4) == 0 || strncmp(path, "/?" "?/", 4) == 0;
}

/* How much of a part counts: of the last one no dots and blanks at its end, and of others a single dot there doesn't. */
static size_t kept_of(const char *part, size_t length, bool is_last)
{
    while (is_last && length && (part[length - 1] == '.' || part[length - 1] == ' '))
        length--;
    bool has_dot = !is_last && length > 1 && part[length - 1] == '.' && part[length - 2] != '.';
    return length - has_dot;
}

/* Without the last part, but never above the root. */
static size_t without_last(const char *path, size_t root, size_t length)
{
    while (length > root && path[length - 1] != '/')
        length--;
    return length > root ? length - 1 : root;
}

void kz_plain_path(char *path)
{
    enum { ROOT = 3 };
    if (is_plain_already(path) || !path[0] || path[1] != ':' || path[2] != '/')
        return;
    size_t used = ROOT, length;
    for (const char *part = path + ROOT; *part; part += length) {
        length = strcspn(part, "/");
        bool is_last = !part[length], is_dots = (length == 1 || length == 2) && strncmp(part, "..", length) == 0;
        size_t kept = is_dots ? 0 : kept_of(part, length, is_last);
        if (is_dots && length == 2)
            used = without_last(path, ROOT, used);
        if (kept && used > ROOT)
            path[used++] = '/';
        memmove(path + used, part, kept);
        used += kept;
        if (!is_last && !part[++length] && used > ROOT) /* a separator at the end stays */
            path[used++] = '/';
    }
    path[used] = 0;
}

void kz_search_expression(char *room, size_t size, const char *typed)
{
    size_t length = (size_t)snprintf(room, size, "%s", strcmp(typed, "*.*") == 0 ? "*" : typed);
    length = length < size ? length : size - 1;
    bool has_dot = length && room[length - 1] == '.';
    length = kept_of(room, length, true);
    room[length] = 0;
    for (size_t at = 0; at < length; at++) {
        bool is_wild = room[at] == '?' || room[at] == '*';
        if (is_wild && at && room[at - 1] == '.')
            room[at - 1] = '"';
        if (room[at] == '?')
            room[at] = '>';
    }
    if (has_dot && length && room[length - 1] == '*')
        room[length - 1] = '<';
}
