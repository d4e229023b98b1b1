/* Calls with any number of arguments. Those of Windows lie one behind the other, 8 bytes each, and its va_list is where the first one lies. A va_list of Linux that has used up its
 * registers reads them so too: no formatting is done twice. */
#include "image/calls.h"
#include "core/client.h"

#include <stdarg.h>

enum { USED_UP = 48, FLOATS_USED_UP = 176, PLENTY = 0x7fffffff };

static void begin(va_list to, void *first)
{
    struct {
        unsigned integers, floats;
        void *rest, *registers;
    } list = {USED_UP, FLOATS_USED_UP, first, NULL};
    _Static_assert(sizeof list == sizeof(va_list), "a list of Linux for x86-64");
    memcpy(to, &list, sizeof list);
}

/* A stub that takes them by themselves, and one that takes a list. */
#define ANY(type, name, parameters, last, call) \
    KZ_STUB_AS(type, kz_stub_##name, parameters, ...) \
    {                                           \
        va_list list;                           \
        __builtin_ms_va_list first;             \
        KZ_FROM();                              \
        __builtin_ms_va_start(first, last);     \
        begin(list, first);                     \
        type said = call;                       \
        __builtin_ms_va_end(first);             \
        return said;                            \
    }
#define LIST(type, name, parameters, call)     \
    KZ_STUB_AS(type, kz_stub_##name, parameters, void *first) \
    {                                          \
        va_list list;                          \
        KZ_FROM();                             \
        begin(list, first);                    \
        return call;                           \
    }
#define P(...) __VA_ARGS__

static ULONG print(const char *name, PCSTR prefix, ULONG component, ULONG level, PCSTR format, va_list list)
{
    KZ_INSIDE_FROM(name, kz_stub_caller);
    return vDbgPrintExWithPrefix(prefix, component, level, format, list);
}

ANY(ULONG, DbgPrint, PCSTR format, format, print("DbgPrint", "", DPFLTR_DEFAULT_ID, DPFLTR_INFO_LEVEL, format, list))
ANY(ULONG, DbgPrintEx, P(ULONG component, ULONG level, PCSTR format), format, print("DbgPrintEx", "", component, level, format, list))
LIST(ULONG, vDbgPrintEx, P(ULONG component, ULONG level, PCSTR format), print("vDbgPrintEx", "", component, level, format, list))
LIST(ULONG, vDbgPrintExWithPrefix, P(PCSTR prefix, ULONG component, ULONG level, PCSTR format), print("vDbgPrintExWithPrefix", prefix, component, level, format, list))
ANY(NTSTATUS, WmiTraceMessage, P(ULONG64 logger, ULONG flags, LPCGUID of, USHORT number), number, WmiTraceMessageVa(logger, flags, of, number, list))
LIST(NTSTATUS, WmiTraceMessageVa, P(ULONG64 logger, ULONG flags, LPCGUID of, USHORT number), WmiTraceMessageVa(logger, flags, of, number, list))
ANY(int, _snwprintf, P(WCHAR *to, size_t room, const WCHAR *format), format, KzVsnwprintf(to, room, format, list))
ANY(int, _snprintf, P(char *to, size_t room, const char *format), format, KzVsnprintf(to, room, format, list))
LIST(int, _vsnwprintf, P(WCHAR *to, size_t room, const WCHAR *format), KzVsnwprintf(to, room, format, list))
LIST(int, _vsnprintf, P(char *to, size_t room, const char *format), KzVsnprintf(to, room, format, list))
ANY(int, swprintf, P(WCHAR *to, const WCHAR *format), format, KzVsnwprintf(to, PLENTY, format, list))
ANY(int, sprintf, P(char *to, const char *format), format, KzVsnprintf(to, PLENTY, format, list))
LIST(int, vswprintf, P(WCHAR *to, const WCHAR *format), KzVsnwprintf(to, PLENTY, format, list))
LIST(int, vsprintf, P(char *to, const char *format), KzVsnprintf(to, PLENTY, format, list))
ANY(int, swprintf_s, P(WCHAR *to, size_t room, const WCHAR *format), format, KzVsnwprintf(to, room, format, list))
ANY(int, sprintf_s, P(char *to, size_t room, const char *format), format, KzVsnprintf(to, room, format, list))
LIST(int, vswprintf_s, P(WCHAR *to, size_t room, const WCHAR *format), KzVsnwprintf(to, room, format, list))
LIST(int, vsprintf_s, P(char *to, size_t room, const char *format), KzVsnprintf(to, room, format, list))
