/* What a test of Wine's needs of user mode, for one that runs as a driver: each of its headers is this one (c/tests/conformance/run.sh). A routine that the kit hasn't ends its test, by name. */
#ifndef SUITE_H
#define SUITE_H

#ifndef SUITE_OWN
#include <initguid.h>
#endif
#include <fltKernel.h>
#include <ntstrsafe.h>
#include <stdarg.h>
#include <winerror.h>
#include <numbers.h>

#define __WINE_WINTERNL_H
#define WINAPIV
#define WINE_NO_LONG_TYPES
#define __ASM_GLOBAL_FUNC(name, code)
#define DECLSPEC_ALIGN_(x)
#define TRUE 1
#define FALSE 0
#ifndef ARRAY_SIZE
#define ARRAY_SIZE(x) (sizeof(x) / sizeof((x)[0]))
#endif
#define U(x) (x)
#define U1(x) (x)
#define U2(x) (x)
#define S(x) (x)
#define MAX_PATH 260

typedef DWORD *LPDWORD;
typedef LONG *LPLONG;
typedef BOOL *LPBOOL;
typedef BYTE *LPBYTE;
typedef HANDLE HMODULE, HINSTANCE;
typedef ULONG LCID;
typedef long long (*FARPROC)(void);

/* ---- Checks: what failed is written as `wrong FILE LINE`. */
extern PVOID suite_way_out[5];
void suite_test(const char *name);
void suite_check(int is_met, const char *file, int line, const char *format, ...);
void suite_skip(const char *file, int line);
void suite_missing(const char *name);
void suite_left_out(const char *name);
void suite_done(void);
FARPROC suite_routine(const char *name);
extern int suite_todo;

#define SUITE(name, call)                        \
    do {                                         \
        suite_test(name);                        \
        if (__builtin_setjmp(suite_way_out) == 0) \
            call;                                \
        suite_done();                            \
    } while (0)
#define START_TEST(name) void suite_begin(void)
#define ok(condition, ...) suite_check(!!(condition), __FILE__, __LINE__, __VA_ARGS__)
#define ok_(file, line) suite_check_at = line, suite_check_there
#define skip(...) suite_skip(__FILE__, __LINE__)
#define win_skip(...) suite_skip(__FILE__, __LINE__)
#define trace(...) ((void)0)
#define broken(condition) 0
#define todo_wine
#define todo_wine_if(condition)
#define todo_if(condition)
#define flaky
#define flaky_wine
#define winetest_push_context(...) ((void)0)
#define winetest_pop_context() ((void)0)
#define winetest_interactive 0
#define winetest_debug 0
#define winetest_platform "windows"
extern int suite_check_at;
void suite_check_there(int is_met, const char *format, ...);
#define winetest_get_mainargs(words) (*(words) = NULL, 0)

/* ---- Constants of user mode. */
#define CP_ACP 0
#define CP_UTF8 65001
#define WC_ERR_INVALID_CHARS 0x80
#define MB_ERR_INVALID_CHARS 8
#define IS_TEXT_UNICODE_ASCII16 1
#define IS_TEXT_UNICODE_STATISTICS 2
#define IS_TEXT_UNICODE_CONTROLS 4
#define IS_TEXT_UNICODE_SIGNATURE 8
#define IS_TEXT_UNICODE_REVERSE_ASCII16 0x10
#define IS_TEXT_UNICODE_REVERSE_STATISTICS 0x20
#define IS_TEXT_UNICODE_REVERSE_CONTROLS 0x40
#define IS_TEXT_UNICODE_REVERSE_SIGNATURE 0x80
#define IS_TEXT_UNICODE_ODD_LENGTH 0x200
#define IS_TEXT_UNICODE_UNICODE_MASK 0xf
#define IS_TEXT_UNICODE_REVERSE_MASK 0xf0
int suite_wide(ULONG page, ULONG flags, const char *text, int length, WCHAR *room, int size);
int suite_narrow(ULONG page, ULONG flags, const WCHAR *text, int length, char *room, int size);
#define MultiByteToWideChar suite_wide
#define WideCharToMultiByte(page, flags, text, length, room, size, other, used) suite_narrow(page, flags, text, length, room, size)
#define C1_UPPER 1
#define C1_LOWER 2
#define C1_DIGIT 4
#define C1_SPACE 8
#define C1_PUNCT 0x10
#define C1_CNTRL 0x20
#define C1_BLANK 0x40
#define C1_XDIGIT 0x80
#define C1_ALPHA 0x100
typedef int CRITICAL_SECTION, *PLDR_DLL_NOTIFICATION_FUNCTION, RTL_TIME_ZONE_INFORMATION, RTL_DYNAMIC_TIME_ZONE_INFORMATION;
typedef PVOID RTL_HANDLE;
#define COMPRESSION_FORMAT_NONE 0
#define COMPRESSION_FORMAT_DEFAULT 1
#define COMPRESSION_FORMAT_LZNT1 2
#define COMPRESSION_ENGINE_MAXIMUM 0x100

/* ---- Modules: all have what the kernel exports. */
#define LoadLibraryA(name) ((HMODULE)1)
#define LoadLibraryW(name) ((HMODULE)1)
#define GetModuleHandleA(name) ((HMODULE)1)
#define GetModuleHandleW(name) ((HMODULE)1)
#define FreeLibrary(module) 1
#define GetProcAddress(module, name) suite_routine(name)
extern ULONG suite_error;
#define GetLastError() suite_error
#define SetLastError(error) (suite_error = (error))

#define NtRenameKey ZwRenameKey

/* ---- Memory and texts. */
#define GetProcessHeap() ((HANDLE)1)
#define HEAP_ZERO_MEMORY 8
PVOID suite_alloc(SIZE_T size);
void suite_free(PVOID block);
#define HeapAlloc(heap, flags, size) suite_alloc(size)
PVOID suite_alloc_again(PVOID block, SIZE_T size);
#define HeapReAlloc(heap, flags, block, size) suite_alloc_again(block, size)
#define HeapFree(heap, flags, block) (suite_free(block), 1)
#define heap_alloc(size) suite_alloc(size)
#define heap_alloc_zero(size) suite_alloc(size)
#define heap_free(block) suite_free(block)
#define malloc(size) suite_alloc(size)
#define free(block) suite_free(block)
#define lstrlenW(text) ((int)wcslen(text))
#define lstrlenA(text) ((int)strlen(text))
#define lstrcmpA strcmp
#define lstrcmpW wcscmp
#define lstrcmpiW _wcsicmp
#define lstrcmpiA _stricmp
#define lstrcpyW wcscpy
#define lstrcatW wcscat
#define lstrcpyA strcpy
#define lstrcatA strcat
#define wsprintfA sprintf
#define wsprintfW swprintf
const char *wine_dbgstr_w(const WCHAR *text);
const char *wine_dbgstr_wn(const WCHAR *text, int length);
const char *wine_dbgstr_a(const char *text);
const char *wine_dbgstr_an(const char *text, int length);
const char *wine_dbgstr_guid(const GUID *guid);
const char *wine_dbgstr_longlong(ULONGLONG number);
#define debugstr_w wine_dbgstr_w
#define debugstr_a wine_dbgstr_a
#define GetCurrentProcess() ((HANDLE)(LONG_PTR)-1)
#define GetCurrentProcessId() HandleToULong(PsGetCurrentProcessId())
#define GetCurrentThreadId() HandleToULong(PsGetCurrentThreadId())
#define CloseHandle(handle) NT_SUCCESS(ZwClose(handle))

#include "files.h"

#endif
