/* Text that ends with a null: of 16-bit letters, which the C library here doesn't have, and the kit's own names for 8-bit text. */
#include "core/piece.h"
#include "lib/format.h"

static WCHAR upper(WCHAR letter)
{
    return letter >= 'a' && letter <= 'z' ? (WCHAR)(letter - ('a' - 'A')) : letter;
}

static WCHAR lower(WCHAR letter)
{
    return letter >= 'A' && letter <= 'Z' ? (WCHAR)(letter + ('a' - 'A')) : letter;
}

WCHAR KzTowupper(WCHAR letter)
{
    return upper(letter);
}

WCHAR KzTowlower(WCHAR letter)
{
    return lower(letter);
}

size_t KzWcsnlen(const WCHAR *text, size_t most)
{
    size_t length = 0;
    while (length < most && text[length])
        length++;
    return length;
}

size_t KzWcslen(const WCHAR *text)
{
    kz_check_text(text, "wcslen");
    return KzWcsnlen(text, SIZE_MAX);
}

static int compare(const WCHAR *a, const WCHAR *b, size_t most)
{
    for (size_t at = 0; at < most; at++) {
        int apart = a[at] - b[at];
        if (apart || !a[at])
            return apart < 0 ? -1 : apart > 0;
    }
    return 0;
}

int KzWcscmp(const WCHAR *a, const WCHAR *b)
{
    kz_check_text(a, "wcscmp");
    return compare(a, b, SIZE_MAX);
}

int KzWcsncmp(const WCHAR *a, const WCHAR *b, size_t most)
{
    return compare(a, b, most);
}

/* Without the case of A to Z alone, as the kernel's library has it, and by how much they differ. */
static int compare_letters(const WCHAR *a, const WCHAR *b, size_t most)
{
    for (size_t at = 0; at < most; at++) {
        int one = a[at] >= 'A' && a[at] <= 'Z' ? a[at] + 32 : a[at], other = b[at] >= 'A' && b[at] <= 'Z' ? b[at] + 32 : b[at];
        if (one != other || !one)
            return one - other;
    }
    return 0;
}

int KzWcsicmp(const WCHAR *a, const WCHAR *b)
{
    kz_check_text(a, "_wcsicmp");
    return compare_letters(a, b, SIZE_MAX);
}

int KzWcsnicmp(const WCHAR *a, const WCHAR *b, size_t most)
{
    return compare_letters(a, b, most);
}

WCHAR *KzWcscpy(WCHAR *to, const WCHAR *from)
{
    kz_check_text(from, "wcscpy");
    memmove(to, from, (KzWcslen(from) + 1) * sizeof(WCHAR));
    return to;
}

WCHAR *KzWcsncpy(WCHAR *to, const WCHAR *from, size_t most)
{
    size_t length = KzWcsnlen(from, most);
    memmove(to, from, length * sizeof(WCHAR));
    memset(to + length, 0, (most - length) * sizeof(WCHAR));
    return to;
}

WCHAR *KzWcscat(WCHAR *to, const WCHAR *from)
{
    kz_check_text(from, "wcscat");
    KzWcscpy(to + KzWcslen(to), from);
    return to;
}

WCHAR *KzWcsncat(WCHAR *to, const WCHAR *from, size_t most)
{
    size_t start = KzWcslen(to), length = KzWcsnlen(from, most);
    memmove(to + start, from, length * sizeof(WCHAR));
    to[start + length] = 0;
    return to;
}

WCHAR *KzWcschr(const WCHAR *text, WCHAR letter)
{
    kz_check_text(text, "wcschr");
    for (;; text++) {
        if (*text == letter)
            return (WCHAR *)text;
        if (!*text)
            return NULL;
    }
}

WCHAR *KzWcsrchr(const WCHAR *text, WCHAR letter)
{
    kz_check_text(text, "wcsrchr");
    for (size_t at = KzWcslen(text) + 1; at-- > 0;)
        if (text[at] == letter)
            return (WCHAR *)text + at;
    return NULL;
}

WCHAR *KzWcsstr(const WCHAR *text, const WCHAR *part)
{
    kz_check_text(text, "wcsstr");
    size_t length = KzWcslen(part);
    for (;; text++) {
        if (KzWcsncmp(text, part, length) == 0)
            return (WCHAR *)text;
        if (!*text)
            return NULL;
    }
}

size_t KzWcsspn(const WCHAR *text, const WCHAR *letters)
{
    size_t length = 0;
    while (text[length] && KzWcschr(letters, text[length]))
        length++;
    return length;
}

size_t KzWcscspn(const WCHAR *text, const WCHAR *letters)
{
    size_t length = 0;
    while (text[length] && !KzWcschr(letters, text[length]))
        length++;
    return length;
}

WCHAR *KzWcspbrk(const WCHAR *text, const WCHAR *letters)
{
    kz_check_text(text, "wcspbrk");
    size_t length = KzWcscspn(text, letters);
    return text[length] ? (WCHAR *)text + length : NULL;
}

WCHAR *KzWcsupr(WCHAR *text)
{
    for (size_t at = 0; text[at]; at++)
        text[at] = upper(text[at]);
    return text;
}

WCHAR *KzWcslwr(WCHAR *text)
{
    for (size_t at = 0; text[at]; at++)
        text[at] = lower(text[at]);
    return text;
}

WCHAR *KzWmemset(WCHAR *to, WCHAR letter, size_t count)
{
    for (size_t at = 0; at < count; at++)
        to[at] = letter;
    return to;
}

/* ---- Copies with a room: what doesn't fit leaves an empty text, and answers not 0. */
int KzWcsncpyS(WCHAR *to, size_t room, const WCHAR *from, size_t most)
{
    size_t length = from ? KzWcsnlen(from, most) : 0;
    if (!to || !room)
        return 22;
    if (!from || length >= room) {
        *to = 0;
        return from ? 34 : 22;
    }
    memmove(to, from, length * sizeof(WCHAR));
    to[length] = 0;
    return 0;
}

int KzWcscpyS(WCHAR *to, size_t room, const WCHAR *from)
{
    return KzWcsncpyS(to, room, from, SIZE_MAX);
}

int KzWcscatS(WCHAR *to, size_t room, const WCHAR *from)
{
    size_t length = KzWcsnlen(to, room);
    return length == room ? 22 : KzWcscpyS(to + length, room - length, from);
}

int KzStrcpyS(char *to, size_t room, const char *from)
{
    if (!to || !room)
        return 22;
    if (!from || strlen(from) >= room) {
        *to = 0;
        return from ? 34 : 22;
    }
    strcpy(to, from);
    return 0;
}

int KzStrcatS(char *to, size_t room, const char *from)
{
    size_t length = strnlen(to, room);
    return length == room ? 22 : KzStrcpyS(to + length, room - length, from);
}

/* ---- Numbers. */
static unsigned long number_in(const WCHAR *text, WCHAR **end, int base, bool *is_negative)
{
    char narrow[80];
    size_t length = 0, skipped = 0;
    while (text[skipped] == ' ' || text[skipped] == '\t')
        skipped++;
    *is_negative = text[skipped] == '-';
    if (text[skipped] == '-' || text[skipped] == '+')
        skipped++;
    while (length < sizeof narrow - 1 && text[skipped + length] && text[skipped + length] < 127) {
        narrow[length] = (char)text[skipped + length];
        length++;
    }
    narrow[length] = 0;
    char *stop;
    unsigned long number = strtoul(narrow, &stop, base);
    if (end)
        *end = (WCHAR *)text + (stop == narrow ? 0 : skipped + (size_t)(stop - narrow));
    return number;
}

long KzWcstol(const WCHAR *text, WCHAR **end, int base)
{
    bool is_negative;
    long number = (long)number_in(text, end, base, &is_negative);
    return is_negative ? -number : number;
}

unsigned long KzWcstoul(const WCHAR *text, WCHAR **end, int base)
{
    kz_check_text(text, "wcstoul");
    bool is_negative;
    unsigned long number = number_in(text, end, base, &is_negative);
    return is_negative ? 0 - number : number;
}

int KzWtoi(const WCHAR *text)
{
    return (int)KzWcstol(text, NULL, 10);
}

/* As the kit's C library has them: what doesn't fit isn't copied, and the room is cleared. */
int KzMemmoveS(void *to, size_t room, const void *from, size_t count)
{
    if (!count)
        return 0;
    if (!to || !from || count > room) {
        if (to)
            memset(to, 0, room);
        return to && from ? 34 : 22;
    }
    memmove(to, from, count);
    return 0;
}

int KzMemcpyS(void *to, size_t room, const void *from, size_t count)
{
    return KzMemmoveS(to, room, from, count);
}

/* ---- Printing into a room. */
typedef struct {
    void *to;
    size_t room, length;
    bool is_wide;
} Room;

static void put_in(void *sink, WCHAR letter)
{
    Room *room = sink;
    if (room->to && room->length < room->room) {
        if (room->is_wide)
            ((WCHAR *)room->to)[room->length] = letter;
        else
            ((char *)room->to)[room->length] = (char)letter;
    }
    room->length++;
}

/* As _vsnprintf: a null behind where there is room for it; -1 for what doesn't fit, unless only its length is asked for. */
static int print(void *to, size_t size, bool is_wide, const void *format, va_list given)
{
    Room room = {to, size, 0, is_wide};
    va_list arguments;
    va_copy(arguments, given);
    kz_format(put_in, &room, format, is_wide, &arguments);
    va_end(arguments);
    if (!to && !size)
        return (int)room.length;
    if (room.length < size) {
        size_t length = room.length;
        put_in(&room, 0);
        return (int)length;
    }
    return room.length == size ? (int)size : -1;
}

int KzVsnwprintf(WCHAR *to, size_t room, const WCHAR *format, va_list arguments)
{
    return print(to, room, true, format, arguments);
}

int KzVsnprintf(char *to, size_t room, const char *format, va_list arguments)
{
    return print(to, room, false, format, arguments);
}

int KzSnwprintf(WCHAR *to, size_t room, const WCHAR *format, ...)
{
    va_list arguments;
    va_start(arguments, format);
    int length = print(to, room, true, format, arguments);
    va_end(arguments);
    return length;
}

int KzSnprintf(char *to, size_t room, const char *format, ...)
{
    va_list arguments;
    va_start(arguments, format);
    int length = print(to, room, false, format, arguments);
    va_end(arguments);
    return length;
}

int KzSwprintf(WCHAR *to, const WCHAR *format, ...)
{
    va_list arguments;
    va_start(arguments, format);
    int length = print(to, SIZE_MAX, true, format, arguments);
    va_end(arguments);
    return length;
}

int KzSprintf(char *to, const char *format, ...)
{
    va_list arguments;
    va_start(arguments, format);
    int length = print(to, SIZE_MAX, false, format, arguments);
    va_end(arguments);
    return length;
}

int KzSwprintfRoom(WCHAR *to, size_t room, const WCHAR *format, ...)
{
    va_list arguments;
    va_start(arguments, format);
    int length = room ? print(to, room, true, format, arguments) : -1;
    va_end(arguments);
    if (room && (length < 0 || (size_t)length == room)) {
        to[room - 1] = 0;
        return -1;
    }
    return length;
}

int KzSprintfS(char *to, size_t room, const char *format, ...)
{
    va_list arguments;
    va_start(arguments, format);
    int length = room ? print(to, room, false, format, arguments) : -1;
    va_end(arguments);
    if (room && (length < 0 || (size_t)length == room)) {
        to[room - 1] = 0;
        return -1;
    }
    return length;
}

/* ---- 8-bit text by the kit's names. */
int KzStrnicmp(const char *a, const char *b, size_t most)
{
    for (size_t at = 0; at < most; at++) {
        int apart = lower((UCHAR)a[at]) - lower((UCHAR)b[at]);
        if (apart || !a[at])
            return apart;
    }
    return 0;
}

int KzStricmp(const char *a, const char *b)
{
    return KzStrnicmp(a, b, SIZE_MAX);
}

char *KzStrupr(char *text)
{
    for (size_t at = 0; text[at]; at++)
        text[at] = (char)upper((UCHAR)text[at]);
    return text;
}

char *KzStrlwr(char *text)
{
    for (size_t at = 0; text[at]; at++)
        text[at] = (char)lower((UCHAR)text[at]);
    return text;
}

/* ---- ntstrsafe.h. */
NTSTATUS KzPutW(NTSTRSAFE_PWSTR To, size_t Room, size_t At, NTSTRSAFE_PCWSTR From, size_t Most)
{
    if (!To || !From || At >= Room)
        return STATUS_INVALID_PARAMETER;
    size_t length = KzWcsnlen(From, Most), fits = length < Room - At ? length : Room - At - 1;
    memmove(To + At, From, fits * sizeof(WCHAR));
    To[At + fits] = 0;
    return fits == length ? STATUS_SUCCESS : STATUS_BUFFER_OVERFLOW;
}

NTSTATUS KzPutA(PSTR To, size_t Room, size_t At, PCSTR From, size_t Most)
{
    if (!To || !From || At >= Room)
        return STATUS_INVALID_PARAMETER;
    size_t length = strnlen(From, Most), fits = length < Room - At ? length : Room - At - 1;
    memmove(To + At, From, fits);
    To[At + fits] = 0;
    return fits == length ? STATUS_SUCCESS : STATUS_BUFFER_OVERFLOW;
}

NTSTATUS RtlStringCchVPrintfW(NTSTRSAFE_PWSTR To, size_t Room, NTSTRSAFE_PCWSTR Format, va_list Arguments)
{
    if (!To || !Room)
        return STATUS_INVALID_PARAMETER;
    int length = print(To, Room, true, Format, Arguments);
    if (length >= 0 && (size_t)length < Room)
        return STATUS_SUCCESS;
    To[Room - 1] = 0;
    return STATUS_BUFFER_OVERFLOW;
}

NTSTATUS RtlStringCchVPrintfA(PSTR To, size_t Room, PCSTR Format, va_list Arguments)
{
    if (!To || !Room)
        return STATUS_INVALID_PARAMETER;
    int length = print(To, Room, false, Format, Arguments);
    if (length >= 0 && (size_t)length < Room)
        return STATUS_SUCCESS;
    To[Room - 1] = 0;
    return STATUS_BUFFER_OVERFLOW;
}

NTSTATUS KzPrintW(NTSTRSAFE_PWSTR To, size_t Room, NTSTRSAFE_PWSTR *End, size_t *Left, NTSTRSAFE_PCWSTR Format, ...)
{
    va_list arguments;
    va_start(arguments, Format);
    NTSTATUS status = RtlStringCchVPrintfW(To, Room, Format, arguments);
    va_end(arguments);
    size_t length = status == STATUS_INVALID_PARAMETER ? 0 : KzWcsnlen(To, Room);
    if (End)
        *End = To + length;
    if (Left)
        *Left = Room - length;
    return status;
}

NTSTATUS KzPrintA(PSTR To, size_t Room, PSTR *End, size_t *Left, PCSTR Format, ...)
{
    va_list arguments;
    va_start(arguments, Format);
    NTSTATUS status = RtlStringCchVPrintfA(To, Room, Format, arguments);
    va_end(arguments);
    size_t length = status == STATUS_INVALID_PARAMETER ? 0 : strnlen(To, Room);
    if (End)
        *End = To + length;
    if (Left)
        *Left = Room - length;
    return status;
}

NTSTATUS RtlStringCchLengthW(NTSTRSAFE_PCWSTR Text, size_t Most, size_t *Length)
{
    size_t length = Text ? KzWcsnlen(Text, Most) : Most;
    if (Length)
        *Length = length < Most ? length : 0;
    return length < Most ? STATUS_SUCCESS : STATUS_INVALID_PARAMETER;
}

NTSTATUS RtlStringCchLengthA(PCSTR Text, size_t Most, size_t *Length)
{
    size_t length = Text ? strnlen(Text, Most) : Most;
    if (Length)
        *Length = length < Most ? length : 0;
    return length < Most ? STATUS_SUCCESS : STATUS_INVALID_PARAMETER;
}

NTSTATUS KzUnicodePrint(PUNICODE_STRING To, NTSTRSAFE_PCWSTR Format, ...)
{
    va_list arguments;
    va_start(arguments, Format);
    size_t room = To->MaximumLength / sizeof(WCHAR);
    int length = print(To->Buffer, room, true, Format, arguments);
    va_end(arguments);
    To->Length = (USHORT)((length < 0 ? room : (size_t)length) * sizeof(WCHAR));
    return length < 0 ? STATUS_BUFFER_OVERFLOW : STATUS_SUCCESS;
}
