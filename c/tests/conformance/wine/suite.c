/* Runs one of Wine's tests as a driver, as it is loaded: `wrong FILE LINE TEST` for each check that isn't met, `missing NAME TEST`, and at the end how many were met. */
#define SUITE_OWN
#include "suite.h"

#include <ctype.h>
#include <stdlib.h>

#undef malloc
#undef free

PVOID suite_way_out[5];
int suite_check_at;
static const char *test = "";
static ULONG met, unmet;

void suite_test(const char *name)
{
    test = name;
    DbgPrint("test %s\n", name);
}

void suite_done(void)
{
    DbgPrint("end %s\n", test);
}

static void check(int is_met, const char *file, int line, const char *format, va_list arguments)
{
    CHAR text[300] = "";
    if (is_met) {
        met++;
        return;
    }
    unmet++;
    RtlStringCbVPrintfA(text, sizeof text - 1, format, arguments);
    DbgPrint("wrong %s %d %s: %s%s", strrchr(file, '/') ? strrchr(file, '/') + 1 : file, line, test, text, strchr(text, '\n') ? "" : "\n");
}

void suite_check(int is_met, const char *file, int line, const char *format, ...)
{
    va_list arguments;
    va_start(arguments, format);
    check(is_met, file, line, format, arguments);
    va_end(arguments);
}

void suite_check_there(int is_met, const char *format, ...)
{
    va_list arguments;
    va_start(arguments, format);
    check(is_met, "caller", suite_check_at, format, arguments);
    va_end(arguments);
}

void suite_skip(const char *file, int line)
{
    DbgPrint("skipped %s %d %s\n", strrchr(file, '/') ? strrchr(file, '/') + 1 : file, line, test);
}

/* ---- Routines that aren't there: each has a place of its own, that says its name. */
static const char *names[256];
static ULONG count;

static void gone(ULONG place)
{
    DbgPrint("missing %s %s\n", names[place], test);
    __builtin_longjmp(suite_way_out, 1);
}

#define ONE(n) static void gone_##n(void) { gone(n); }
#define TEN(n) ONE(n##0) ONE(n##1) ONE(n##2) ONE(n##3) ONE(n##4) ONE(n##5) ONE(n##6) ONE(n##7)
TEN(0) TEN(01) TEN(02) TEN(03) TEN(04) TEN(05) TEN(06) TEN(07) TEN(010) TEN(011) TEN(012) TEN(013) TEN(014) TEN(015) TEN(016) TEN(017)
#define NAME(n) gone_##n,
#define NAMES(n) NAME(n##0) NAME(n##1) NAME(n##2) NAME(n##3) NAME(n##4) NAME(n##5) NAME(n##6) NAME(n##7)
static void (*const places[])(void) = {NAMES(0) NAMES(01) NAMES(02) NAMES(03) NAMES(04) NAMES(05) NAMES(06) NAMES(07) NAMES(010) NAMES(011) NAMES(012) NAMES(013) NAMES(014) NAMES(015)
                                           NAMES(016) NAMES(017)};

/* ---- Memory, and words for messages. */
PVOID suite_alloc(SIZE_T size)
{
    PVOID made = ExAllocatePoolWithTag(NonPagedPool, size ? size : 1, 'tseT');
    if (made)
        RtlZeroMemory(made, size);
    return made;
}

/* Of a text with a null behind it, which is all that tests make larger. */
PVOID suite_alloc_again(PVOID block, SIZE_T size)
{
    PWCH made = suite_alloc(size);
    if (made && block)
        wcscpy(made, block);
    suite_free(block);
    return made;
}

static PVOID heap_again(HANDLE heap, ULONG flags, PVOID block, SIZE_T size)
{
    UNREFERENCED_PARAMETER(heap);
    UNREFERENCED_PARAMETER(flags);
    return suite_alloc_again(block, size);
}

static PVOID heap_new(HANDLE heap, ULONG flags, SIZE_T size)
{
    UNREFERENCED_PARAMETER(heap);
    UNREFERENCED_PARAMETER(flags);
    return suite_alloc(size);
}

static BOOLEAN heap_end(HANDLE heap, ULONG flags, PVOID block)
{
    UNREFERENCED_PARAMETER(heap);
    UNREFERENCED_PARAMETER(flags);
    suite_free(block);
    return TRUE;
}

void suite_free(PVOID block)
{
    if (block)
        ExFreePool(block);
}

static NTSTATUS suite_user_key(PUNICODE_STRING path)
{
    return suite_unicode(path, "\\Registry\\User\\S-1-5-21-1-2-3-1000") ? STATUS_SUCCESS : STATUS_NO_MEMORY;
}

/* Those of the compiler's library, which a driver's source has by its headers. */
static const struct {
    const char *name;
    PVOID routine;
} library[] = {
#define OWN(name, routine) {#name, (PVOID)(ULONG_PTR)routine},
#define ROW(name) {#name, (PVOID)(ULONG_PTR)name},
    OWN(RtlDosPathNameToNtPathName_U, suite_nt_path) OWN(RtlCreateUnicodeStringFromAsciiz, suite_unicode) OWN(RtlFormatCurrentUserKeyPath, suite_user_key) OWN(NtClose, suite_close)
    OWN(RtlAllocateHeap, heap_new) OWN(RtlReAllocateHeap, heap_again) OWN(RtlFreeHeap, heap_end)
    ROW(wcstol) ROW(wcschr) ROW(wcsrchr) ROW(_wcslwr) ROW(_wcsupr) ROW(atoi) ROW(atol) ROW(qsort) ROW(bsearch) ROW(_snprintf) ROW(_snwprintf) ROW(tolower) ROW(toupper) ROW(_strnicmp)
    ROW(_wcsicmp) ROW(_wcsnicmp) ROW(wcslen) ROW(wcscmp) ROW(wcscpy) ROW(memchr) ROW(isalnum) ROW(isalpha) ROW(isdigit) ROW(islower) ROW(isprint) ROW(isspace) ROW(isupper) ROW(isxdigit)
    ROW(iscntrl) ROW(isgraph) ROW(ispunct)
};

FARPROC suite_routine(const char *name)
{
    WCHAR letters[64];
    UNICODE_STRING text;
    PVOID found;
    RtlStringCbPrintfW(letters, sizeof letters, L"%S", strncmp(name, "Nt", 2) == 0 ? "Zw" : "");
    RtlStringCbPrintfW(letters, sizeof letters, L"%S%S", strncmp(name, "Nt", 2) == 0 ? "Zw" : "", strncmp(name, "Nt", 2) == 0 ? name + 2 : name);
    RtlInitUnicodeString(&text, letters);
    for (ULONG at = 0; at < RTL_NUMBER_OF(library); at++)
        if (strcmp(library[at].name, name) == 0)
            return (FARPROC)library[at].routine;
    found = MmGetSystemRoutineAddress(&text);
    if (found || count == RTL_NUMBER_OF(places))
        return (FARPROC)found;
    names[count] = name;
    return (FARPROC)places[count++];
}

void suite_left_out(const char *name)
{
    DbgPrint("left out %s\n", name);
}

void suite_missing(const char *name)
{
    DbgPrint("missing %s %s\n", name, test);
    __builtin_longjmp(suite_way_out, 1);
}

/* The program's two calls, by the kit's. */
ULONG suite_error;

int suite_wide(ULONG page, ULONG flags, const char *text, int length, WCHAR *room, int size)
{
    ULONG all = length < 0 ? (ULONG)strlen(text) + 1 : (ULONG)length, made = 0;
    NTSTATUS status = page == CP_UTF8 ? RtlUTF8ToUnicodeN(size ? room : NULL, size * sizeof(WCHAR), &made, text, all)
                      : size ? RtlMultiByteToUnicodeN(room, size * sizeof(WCHAR), &made, text, all) : STATUS_SUCCESS;
    if (page != CP_UTF8 && !size)
        made = all * sizeof(WCHAR);
    if (status == STATUS_SOME_NOT_MAPPED && flags & MB_ERR_INVALID_CHARS) {
        suite_error = ERROR_NO_UNICODE_TRANSLATION;
        return 0;
    }
    return made / sizeof(WCHAR);
}

int suite_narrow(ULONG page, ULONG flags, const WCHAR *text, int length, char *room, int size)
{
    ULONG all = length < 0 ? (ULONG)wcslen(text) + 1 : (ULONG)length, made = 0;
    NTSTATUS status = page == CP_UTF8 ? RtlUnicodeToUTF8N(size ? room : NULL, size, &made, text, all * sizeof(WCHAR))
                      : size ? RtlUnicodeToMultiByteN(room, size, &made, text, all * sizeof(WCHAR)) : STATUS_SUCCESS;
    if (page != CP_UTF8 && !size)
        made = all;
    if (status == STATUS_SOME_NOT_MAPPED && flags & WC_ERR_INVALID_CHARS) {
        suite_error = ERROR_NO_UNICODE_TRANSLATION;
        return 0;
    }
    return made;
}

const char *wine_dbgstr_wn(const WCHAR *text, int length)
{
    static CHAR room[4][200];
    static ULONG next;
    CHAR *made = room[next++ % 4];
    int at = 0;
    for (; text && at < 190 && (length < 0 ? text[at] != 0 : at < length); at++)
        made[at] = text[at] < 0x7f && text[at] >= 0x20 ? (CHAR)text[at] : '?';
    made[at] = 0;
    return made;
}

const char *wine_dbgstr_w(const WCHAR *text)
{
    return wine_dbgstr_wn(text, -1);
}

const char *wine_dbgstr_a(const char *text)
{
    return text ? text : "(null)";
}

const char *wine_dbgstr_an(const char *text, int length)
{
    UNREFERENCED_PARAMETER(length);
    return text ? text : "(null)";
}

const char *wine_dbgstr_guid(const GUID *guid)
{
    return guid ? "a GUID" : "(null)";
}

const char *wine_dbgstr_longlong(ULONGLONG number)
{
    UNREFERENCED_PARAMETER(number);
    return "a number";
}

void suite_begin(void);

static void unload(PDRIVER_OBJECT Driver)
{
    UNREFERENCED_PARAMETER(Driver);
}

NTSTATUS DriverEntry(PDRIVER_OBJECT Driver, PUNICODE_STRING Path)
{
    UNREFERENCED_PARAMETER(Path);
    Driver->DriverUnload = unload;
    suite_begin();
    DbgPrint("met %lu, wrong %lu\n", met, unmet);
    return STATUS_UNSUCCESSFUL;
}
