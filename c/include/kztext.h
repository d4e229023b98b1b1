/* Text of 16-bit letters, by the kit's names. The C library's own calls take its 32-bit letters: none of them may be linked by accident, so that each name stands
 * for one of the host's. */
#ifndef KZ_TEXT_H
#define KZ_TEXT_H

#include <ctype.h>
#include <stdio.h>
#include <stdlib.h>
#include <wchar.h>

KZ_BEGIN

size_t KzWcslen(const WCHAR *text);
size_t KzWcsnlen(const WCHAR *text, size_t most);
int KzWcscmp(const WCHAR *a, const WCHAR *b);
int KzWcsncmp(const WCHAR *a, const WCHAR *b, size_t most);
int KzWcsicmp(const WCHAR *a, const WCHAR *b);
int KzWcsnicmp(const WCHAR *a, const WCHAR *b, size_t most);
WCHAR *KzWcscpy(WCHAR *to, const WCHAR *from);
WCHAR *KzWcsncpy(WCHAR *to, const WCHAR *from, size_t most);
WCHAR *KzWcscat(WCHAR *to, const WCHAR *from);
WCHAR *KzWcsncat(WCHAR *to, const WCHAR *from, size_t most);
WCHAR *KzWcschr(const WCHAR *text, WCHAR letter);
WCHAR *KzWcsrchr(const WCHAR *text, WCHAR letter);
WCHAR *KzWcsstr(const WCHAR *text, const WCHAR *part);
WCHAR *KzWcspbrk(const WCHAR *text, const WCHAR *letters);
size_t KzWcsspn(const WCHAR *text, const WCHAR *letters);
size_t KzWcscspn(const WCHAR *text, const WCHAR *letters);
WCHAR *KzWcsupr(WCHAR *text);
WCHAR *KzWcslwr(WCHAR *text);
WCHAR KzTowupper(WCHAR letter);
WCHAR KzTowlower(WCHAR letter);
WCHAR *KzWmemset(WCHAR *to, WCHAR letter, size_t count);
int KzWcscpyS(WCHAR *to, size_t room, const WCHAR *from);
int KzWcsncpyS(WCHAR *to, size_t room, const WCHAR *from, size_t most);
int KzWcscatS(WCHAR *to, size_t room, const WCHAR *from);
long KzWcstol(const WCHAR *text, WCHAR **end, int base);
unsigned long KzWcstoul(const WCHAR *text, WCHAR **end, int base);
/* Without a room, and with one, as the kit has both under one name. */
int KzSwprintf(WCHAR *to, const WCHAR *format, ...);
int KzSwprintfRoom(WCHAR *to, size_t room, const WCHAR *format, ...);
int KzSnwprintf(WCHAR *to, size_t room, const WCHAR *format, ...);
int KzVsnwprintf(WCHAR *to, size_t room, const WCHAR *format, va_list arguments);
int KzSnprintf(char *to, size_t room, const char *format, ...);
int KzVsnprintf(char *to, size_t room, const char *format, va_list arguments);
int KzSprintf(char *to, const char *format, ...);
int KzSprintfS(char *to, size_t room, const char *format, ...);
int KzStrcpyS(char *to, size_t room, const char *from);
int KzStrcatS(char *to, size_t room, const char *from);
int KzMemcpyS(void *to, size_t room, const void *from, size_t count);
int KzMemmoveS(void *to, size_t room, const void *from, size_t count);
int KzWtoi(const WCHAR *text);
int KzStricmp(const char *a, const char *b);
int KzStrnicmp(const char *a, const char *b, size_t most);
char *KzStrupr(char *text);
char *KzStrlwr(char *text);

KZ_END

#define wcslen KzWcslen
#define wcsnlen KzWcsnlen
#define wcscmp KzWcscmp
#define wcsncmp KzWcsncmp
#define _wcsicmp KzWcsicmp
#define wcsicmp KzWcsicmp
#define _wcsnicmp KzWcsnicmp
#define wcscpy KzWcscpy
#define wcsncpy KzWcsncpy
#define wcscat KzWcscat
#define wcsncat KzWcsncat
#define wcschr KzWcschr
#define wcsrchr KzWcsrchr
#define wcsstr KzWcsstr
#define wcspbrk KzWcspbrk
#define wcsspn KzWcsspn
#define wcscspn KzWcscspn
#define _wcsupr KzWcsupr
#define _wcslwr KzWcslwr
#define towupper KzTowupper
#define towlower KzTowlower
#define wmemset KzWmemset
#define wcscpy_s KzWcscpyS
#define wcsncpy_s KzWcsncpyS
#define wcscat_s KzWcscatS
#define wcstol KzWcstol
#define wcstoul KzWcstoul
#define _snwprintf KzSnwprintf
#define _vsnwprintf KzVsnwprintf
#define vswprintf KzVsnwprintf
#define swprintf_s KzSwprintfRoom
#define _snprintf KzSnprintf
#define _vsnprintf KzVsnprintf
#define sprintf_s KzSprintfS
#define strcpy_s KzStrcpyS
#define strcat_s KzStrcatS
#define memcpy_s KzMemcpyS
#define memmove_s KzMemmoveS
#define _wtoi KzWtoi
#define _stricmp KzStricmp
#define stricmp KzStricmp
#define _strnicmp KzStrnicmp
#define strnicmp KzStrnicmp
#define _strupr KzStrupr
#define _strlwr KzStrlwr
#ifdef __cplusplus
template <typename... T> int KzSwprintfEither(WCHAR *to, const WCHAR *format, T... arguments)
{
    return KzSwprintf(to, format, arguments...);
}
template <typename... T> int KzSwprintfEither(WCHAR *to, size_t room, const WCHAR *format, T... arguments)
{
    return KzSwprintfRoom(to, room, format, arguments...);
}
#define swprintf KzSwprintfEither
#else
#define swprintf(to, second, ...) _Generic((second), WCHAR *: KzSwprintf, const WCHAR *: KzSwprintf, default: KzSwprintfRoom)((to), (second), ##__VA_ARGS__)
#endif

#endif
