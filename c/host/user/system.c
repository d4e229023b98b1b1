/* Memory, time and texts of programs. */
#include "core/client.h"
#include "core/clock.h"
#include "core/memory.h"
#include "lib/format.h"
#include "user/object.h"
#include "user/program.h"

#include <stdlib.h>

/* ---- Memory is the C library's. */
void *GetProcessHeap(void);
void *GetProcessHeap(void)
{
    return (void *)1;
}

void *HeapAlloc(void *heap, uint32_t flags, size_t size);
void *HeapAlloc(void *heap, uint32_t flags, size_t size)
{
    (void)heap, (void)flags;
    return calloc(1, size ? size : 1);
}

int HeapFree(void *heap, uint32_t flags, void *memory);
int HeapFree(void *heap, uint32_t flags, void *memory)
{
    (void)heap, (void)flags;
    free(memory);
    return 1;
}

void *LocalAlloc(uint32_t flags, size_t size);
void *LocalAlloc(uint32_t flags, size_t size)
{
    return HeapAlloc(NULL, flags, size);
}

void *LocalFree(void *memory);
void *LocalFree(void *memory)
{
    free(memory);
    return NULL;
}

void *VirtualAlloc(void *address, size_t size, uint32_t type, uint32_t protection);
void *VirtualAlloc(void *address, size_t size, uint32_t type, uint32_t protection)
{
    (void)address, (void)type, (void)protection;
    return calloc(1, size ? size : 1);
}

int VirtualFree(void *address, size_t size, uint32_t type);
int VirtualFree(void *address, size_t size, uint32_t type)
{
    (void)size, (void)type;
    free(address);
    return 1;
}

/* ---- Time. */
typedef struct {
    uint16_t year, month, weekday, day, hour, minute, second, milliseconds;
} SystemTime;

uint64_t GetTickCount64(void);
uint64_t GetTickCount64(void)
{
    KZ_INSIDE();
    return kz_now();
}

uint32_t GetTickCount(void);
uint32_t GetTickCount(void)
{
    return (uint32_t)GetTickCount64();
}

void GetSystemTimeAsFileTime(uint64_t *time);
void GetSystemTimeAsFileTime(uint64_t *time)
{
    LARGE_INTEGER now;
    KeQuerySystemTime(&now);
    *time = (uint64_t)now.QuadPart;
}

int FileTimeToLocalFileTime(const uint64_t *from, uint64_t *to);
int FileTimeToLocalFileTime(const uint64_t *from, uint64_t *to)
{
    memcpy(to, from, sizeof *to);
    return 1;
}

int FileTimeToSystemTime(const void *from, SystemTime *to);
int FileTimeToSystemTime(const void *from, SystemTime *to)
{
    LARGE_INTEGER time;
    TIME_FIELDS fields;
    memcpy(&time, from, sizeof time);
    RtlTimeToTimeFields(&time, &fields);
    *to = (SystemTime){(uint16_t)fields.Year,
                       (uint16_t)fields.Month,
                       (uint16_t)fields.Weekday,
                       (uint16_t)fields.Day,
                       (uint16_t)fields.Hour,
                       (uint16_t)fields.Minute,
                       (uint16_t)fields.Second,
                       (uint16_t)fields.Milliseconds};
    return 1;
}

void GetSystemTime(SystemTime *to);
void GetSystemTime(SystemTime *to)
{
    uint64_t now;
    GetSystemTimeAsFileTime(&now);
    FileTimeToSystemTime(&now, to);
}

void GetLocalTime(SystemTime *to);
void GetLocalTime(SystemTime *to)
{
    GetSystemTime(to);
}

int QueryPerformanceFrequency(int64_t *frequency);
int QueryPerformanceFrequency(int64_t *frequency)
{
    *frequency = 10000000;
    return 1;
}

int QueryPerformanceCounter(int64_t *counter);
int QueryPerformanceCounter(int64_t *counter)
{
    *counter = KeQueryPerformanceCounter(NULL).QuadPart;
    return 1;
}

/* ---- Texts. */
int lstrlenA(const char *text);
int lstrlenA(const char *text)
{
    return text ? (int)strlen(text) : 0;
}

int lstrlenW(const WCHAR *text);
int lstrlenW(const WCHAR *text)
{
    int length = 0;
    while (text && text[length])
        length++;
    return length;
}

int MultiByteToWideChar(uint32_t page, uint32_t flags, const char *text, int length, WCHAR *room, int size);
int MultiByteToWideChar(uint32_t page, uint32_t flags, const char *text, int length, WCHAR *room, int size)
{
    (void)page, (void)flags;
    int count = length < 0 ? lstrlenA(text) + 1 : length;
    if (!size)
        return count;
    if (size < count)
        return kz_failed(122);
    for (int at = 0; at < count; at++)
        room[at] = (UCHAR)text[at];
    return count;
}

int WideCharToMultiByte(uint32_t page, uint32_t flags, const WCHAR *text, int length, char *room, int size, const char *standard, int *is_used);
int WideCharToMultiByte(uint32_t page, uint32_t flags, const WCHAR *text, int length, char *room, int size, const char *standard, int *is_used)
{
    (void)page, (void)flags, (void)standard;
    int count = length < 0 ? lstrlenW(text) + 1 : length;
    if (is_used)
        *is_used = 0;
    if (!size)
        return count;
    if (size < count)
        return kz_failed(122);
    for (int at = 0; at < count; at++)
        room[at] = (char)(text[at] < 128 ? text[at] : '?');
    return count;
}

/* A message has no text here but its number. */
uint32_t FormatMessageA(uint32_t flags, const void *source, uint32_t message, uint32_t language, char *room, uint32_t size, va_list *arguments);
uint32_t FormatMessageA(uint32_t flags, const void *source, uint32_t message, uint32_t language, char *room, uint32_t size, va_list *arguments)
{
    (void)source, (void)language, (void)arguments;
    char text[32];
    uint32_t length = (uint32_t)snprintf(text, sizeof text, "error 0x%x", message);
    if (flags & 0x100) { /* FORMAT_MESSAGE_ALLOCATE_BUFFER */
        char *made = kz_memory(length + 1);
        memcpy(made, text, length + 1);
        memcpy(room, &made, sizeof made);
        return length;
    }
    snprintf(room, size, "%s", text);
    return length;
}

/* ---- Safe texts: where there is no room the text is cut, and the answer says so. */
#define NO_ROOM ((int32_t)0x8007007a)

typedef struct {
    void *to;
    size_t room, used;
    bool is_wide;
} Target;

static void put(void *given, WCHAR letter)
{
    Target *target = given;
    if (target->used + 1 < target->room && target->is_wide)
        ((WCHAR *)target->to)[target->used] = letter;
    else if (target->used + 1 < target->room)
        ((char *)target->to)[target->used] = (char)letter;
    target->used++;
}

static int32_t finish(Target *target)
{
    if (!target->room)
        return (int32_t)0x80070057;
    size_t end = target->used < target->room ? target->used : target->room - 1;
    if (target->is_wide)
        ((WCHAR *)target->to)[end] = 0;
    else
        ((char *)target->to)[end] = 0;
    return target->used < target->room ? 0 : NO_ROOM;
}

int32_t StringCchPrintfA(char *to, size_t room, const char *format, ...);
int32_t StringCchPrintfA(char *to, size_t room, const char *format, ...)
{
    Target target = {to, room, 0, false};
    va_list arguments;
    va_start(arguments, format);
    kz_format(put, &target, format, false, &arguments);
    va_end(arguments);
    return finish(&target);
}

int32_t StringCchPrintfW(WCHAR *to, size_t room, const WCHAR *format, ...);
int32_t StringCchPrintfW(WCHAR *to, size_t room, const WCHAR *format, ...)
{
    Target target = {to, room, 0, true};
    va_list arguments;
    va_start(arguments, format);
    kz_format(put, &target, format, true, &arguments);
    va_end(arguments);
    return finish(&target);
}

static int32_t append(Target target, const void *from)
{
    if (target.is_wide)
        for (const WCHAR *at = from; *at; at++)
            put(&target, *at);
    else
        for (const char *at = from; *at; at++)
            put(&target, (UCHAR)*at);
    return finish(&target);
}

int32_t StringCchCopyA(char *to, size_t room, const char *from);
int32_t StringCchCopyA(char *to, size_t room, const char *from)
{
    return append((Target){to, room, 0, false}, from);
}

int32_t StringCchCopyW(WCHAR *to, size_t room, const WCHAR *from);
int32_t StringCchCopyW(WCHAR *to, size_t room, const WCHAR *from)
{
    return append((Target){to, room, 0, true}, from);
}

int32_t StringCchCatA(char *to, size_t room, const char *from);
int32_t StringCchCatA(char *to, size_t room, const char *from)
{
    return append((Target){to, room, (size_t)lstrlenA(to), false}, from);
}

int32_t StringCchCatW(WCHAR *to, size_t room, const WCHAR *from);
int32_t StringCchCatW(WCHAR *to, size_t room, const WCHAR *from)
{
    return append((Target){to, room, (size_t)lstrlenW(to), true}, from);
}

int32_t StringCchLengthA(const char *text, size_t most, size_t *length);
int32_t StringCchLengthA(const char *text, size_t most, size_t *length)
{
    size_t own = strnlen(text, most);
    if (length)
        *length = own;
    return own < most ? 0 : (int32_t)0x80070057;
}

int32_t StringCchLengthW(const WCHAR *text, size_t most, size_t *length);
int32_t StringCchLengthW(const WCHAR *text, size_t most, size_t *length)
{
    size_t own = 0;
    while (own < most && text[own])
        own++;
    if (length)
        *length = own;
    return own < most ? 0 : (int32_t)0x80070057;
}

/* The C library's end of a program. */
void ExitProcess(uint32_t code) __attribute__((noreturn));
void KzUserExit(int code) __attribute__((noreturn));
void KzUserExit(int code)
{
    ExitProcess((uint32_t)code);
}
