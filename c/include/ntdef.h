/* The kit's own types, lists, strings and macros, laid out as in the kit for x64. c/build.sh sets what the kit's projects set; whoever compiles by other means
 * gets the same here. */
#ifndef KZ_NTDEF_H
#define KZ_NTDEF_H

#ifndef _WIN64
#define _WIN64 1
#endif
#ifndef _M_AMD64
#define _M_AMD64 100
#endif
#ifndef _AMD64_
#define _AMD64_ 1
#endif
#ifndef _WIN32_WINNT
#define _WIN32_WINNT 0x0A00
#endif
#ifndef WINVER
#define WINVER _WIN32_WINNT
#endif
#define NTDDI_WIN2K 0x05000000
#define NTDDI_WINXP 0x05010000
#define NTDDI_WINXPSP2 0x05010200
#define NTDDI_WS03 0x05020000
#define NTDDI_WS03SP1 0x05020100
#define NTDDI_WIN6 0x06000000
#define NTDDI_LONGHORN NTDDI_WIN6
#define NTDDI_VISTA NTDDI_WIN6
#define NTDDI_VISTASP1 0x06000100
#define NTDDI_WS08 0x06000100
#define NTDDI_WIN7 0x06010000
#define NTDDI_WIN8 0x06020000
#define NTDDI_WINBLUE 0x06030000
#define NTDDI_WINTHRESHOLD 0x0A000000
#define NTDDI_WIN10 0x0A000000
#define NTDDI_WIN10_RS1 0x0A000002
#ifndef NTDDI_VERSION
#define NTDDI_VERSION NTDDI_WIN10_RS1
#endif
#define _WIN32_WINNT_WIN2K 0x0500
#define _WIN32_WINNT_WINXP 0x0501
#define _WIN32_WINNT_VISTA 0x0600
#define _WIN32_WINNT_WIN7 0x0601
#define _WIN32_WINNT_WIN8 0x0602
#define _WIN32_WINNT_WIN10 0x0A00
#ifndef DBG
#define DBG 1
#endif

#include <stdarg.h>
#include <stddef.h>
#include <stdint.h>
#include <string.h>

#include <driverspecs.h>
#include <sal.h>

/* The kit's style: four characters as a tag, pragmas of its own tools, an end mark that leaves fields out. */
#pragma GCC diagnostic ignored "-Wmultichar"
#pragma GCC diagnostic ignored "-Wunknown-pragmas"
#pragma GCC diagnostic ignored "-Wmissing-field-initializers"
#ifdef __clang__
#pragma GCC diagnostic ignored "-Wfour-char-constants"
#pragma GCC diagnostic ignored "-Wmissing-braces"
#endif

/* ---- Words of the kit's compiler. */
#ifdef __cplusplus
#define KZ_EXTERN_C extern "C"
#define KZ_BEGIN extern "C" {
#define KZ_END }
#define KZ_ASSERT(e, text) static_assert(e, text)
#else
#define KZ_EXTERN_C extern
#define KZ_BEGIN
#define KZ_END
#define KZ_ASSERT(e, text) _Static_assert(e, text)
#endif
#define EXTERN_C KZ_EXTERN_C
#define EXTERN_C_START KZ_BEGIN
#define EXTERN_C_END KZ_END
/* What changes a layout or a linkage means what it means there; the others stand for nothing. */
#define __declspec(x) KZ_DECLSPEC_##x
#define KZ_DECLSPEC_align(n) __attribute__((aligned(n)))
#define KZ_DECLSPEC_noinline __attribute__((noinline))
#define KZ_DECLSPEC_noreturn __attribute__((noreturn))
#define KZ_DECLSPEC_selectany __attribute__((weak))
#define KZ_DECLSPEC_restrict
#define KZ_DECLSPEC_noalias
#define KZ_DECLSPEC_nothrow
#define KZ_DECLSPEC_novtable
#define KZ_DECLSPEC_safebuffers
#define KZ_DECLSPEC_deprecated
#define KZ_DECLSPEC_dllimport
#define KZ_DECLSPEC_dllexport
#define KZ_DECLSPEC_naked
#define KZ_DECLSPEC_thread
#define KZ_DECLSPEC_allocate(name)
#define KZ_DECLSPEC_code_seg(name)
#define KZ_DECLSPEC_property(...)
#define KZ_DECLSPEC_uuid(name)
#define KZ_DECLSPEC_guard(name)
#define __cdecl
#define __stdcall
#define __fastcall
#define __forceinline static inline __attribute__((always_inline))
#ifndef __cplusplus
#define __inline inline
#endif
#define __ptr64
#define __unaligned
#define __volatile volatile
#define _cdecl
#define __w64
#define __int64 long long
#define __int32 int
#define __int16 short
#define __int8 char
#define __FUNCTION__W L""
#ifndef __clang__
#define __pragma(...) /* clang has it */
#endif
#define __assume(x) ((void)0)
#define __noop(...) ((void)0)
#define __debugbreak() KzBreak()
#if !defined(__cplusplus) && !defined(static_assert)
#define static_assert _Static_assert
#endif
#define C_ASSERT(e) typedef char KZ_JOIN(kz_c_assert_, __LINE__)[(e) ? 1 : -1] __attribute__((unused))
#define KZ_JOIN(a, b) KZ_JOIN2(a, b)
#define KZ_JOIN2(a, b) a##b
#define NTAPI
#define NTSYSAPI
#define NTKERNELAPI
#define NTHALAPI
#define FASTCALL
#define FLTAPI
#define WINAPI
#define APIENTRY
#define CALLBACK
#define DECLSPEC_IMPORT
#define DECLSPEC_NORETURN
#define DECLSPEC_NOINLINE
#define DECLSPEC_SELECTANY __attribute__((weak))
#define DECLSPEC_ALIGN(n) __attribute__((aligned(n)))
#define DECLSPEC_CACHEALIGN DECLSPEC_ALIGN(64)
#define DECLSPEC_DEPRECATED_DDK
#define POINTER_ALIGNMENT DECLSPEC_ALIGN(8)
#define UNALIGNED
#define RESTRICTED_POINTER
#define FORCEINLINE __forceinline /* also without optimization: what is told names the line that calls it */
#define CFORCEINLINE __forceinline
#define INLINE static inline
#define CONST const
#define IN
#define OUT
#define OPTIONAL
#define NOTHING
#define CRITICAL
#define FAR
#define PASCAL
#define STDAPICALLTYPE
#define ANYSIZE_ARRAY 1
#define DUMMYUNIONNAME
#define DUMMYSTRUCTNAME
#define ARGUMENT_PRESENT(p) ((PVOID)(p) != NULL)
#define UNREFERENCED_PARAMETER(p) ((void)(p))
#define DBG_UNREFERENCED_PARAMETER(p) ((void)(p))
#define UNREFERENCED_LOCAL_VARIABLE(p) ((void)(p))
#define DBG_UNREFERENCED_LOCAL_VARIABLE(p) ((void)(p))
#define DEFAULT_UNREACHABLE default: break

/* Structured exceptions. A try block keeps where its function goes on (jump); the host (core/raise.c) goes there to ask its filter and to run its finally block, above whoever raises, and to run its
 * handler. So a function with such a block may hold nothing in registers: c/adapt gives it KZ_TRIES. What isn't at its end (a `return`, a `goto`, a `break`) has its finally block run first. */
#define EXCEPTION_EXECUTE_HANDLER 1
#define EXCEPTION_CONTINUE_SEARCH 0
#define EXCEPTION_CONTINUE_EXECUTION (-1)
struct _EXCEPTION_POINTERS;
typedef struct KzTry {
    struct KzTry *outer;
    void *raise;
    unsigned long long callback;
    void *jump[5];
} KzTry;
typedef struct {
    KzTry *block;
    int is_at_end;
} KzTried;
typedef struct {
    int is_due, is_abnormal;
    void **back;
} KzFinally;
#ifdef __cplusplus
extern "C" {
#endif
void KzEnterTry(KzTry *Try);
void KzLeaveTry(KzTried *Tried);
int KzIsAsked(const void *Frame, int Block);
int KzFiltered(int Filter);
int KzIsTaken(void);
KzFinally KzBeginFinally(void);
void KzEndFinally(KzFinally *Finally);
int KzExceptionCode(const void *Frame, int Block);
struct _EXCEPTION_POINTERS *KzExceptionInformation(const void *Frame, int Block);
#ifdef __cplusplus
}
#endif
#ifdef __cplusplus
#define KZ_TRIES
#elif defined(__clang__)
#define KZ_TRIES __attribute__((noinline, optnone))
#else
#define KZ_TRIES __attribute__((noinline, optimize("O0", "no-ira-share-spill-slots"), no_split_stack))
#endif
#define KZ_TRY { KzTry kz_try; KzEnterTry(&kz_try); if (!__builtin_setjmp(kz_try.jump)) { __label__ kz_left; __attribute__((cleanup(KzLeaveTry))) KzTried kz_tried = {&kz_try, 0};
#define KZ_LEFT kz_left: __attribute__((unused)); kz_tried.is_at_end = 1; } }
#define KZ_HANDLES(filter) (KzIsAsked(__builtin_frame_address(0), kz_handler) ? KzFiltered(filter) : KzIsTaken())
#define KZ_FINALLY KZ_LEFT for (KzFinally kz_finally = KzBeginFinally(); kz_finally.is_due; KzEndFinally(&kz_finally))
/* The block has a number of its own in what stands behind `if`. */
#ifdef __cplusplus
#define KZ_EXCEPT(filter) KZ_LEFT if (constexpr int kz_handler = __COUNTER__; !KZ_HANDLES(filter)) { } else
#else
#define KZ_EXCEPT(filter) KZ_LEFT if (sizeof(enum { kz_handler = __COUNTER__ }) == 0 || !KZ_HANDLES(filter)) { } else
#endif
#define GetExceptionCode() ((NTSTATUS)KzExceptionCode(__builtin_frame_address(0), kz_handler))
#define GetExceptionInformation() KzExceptionInformation(__builtin_frame_address(0), kz_handler)
#define _exception_code GetExceptionCode
#define _exception_info GetExceptionInformation
#define AbnormalTermination() (kz_finally.is_abnormal)
#define _abnormal_termination AbnormalTermination
#if !defined(__cplusplus) || defined(KZ_SEH)
#define __try KZ_TRY
#define __finally KZ_FINALLY
#define __except(filter) KZ_EXCEPT(filter)
#define __leave goto kz_left
#endif
#ifndef __cplusplus
#define try KZ_TRY
#define finally KZ_FINALLY
#define except(filter) KZ_EXCEPT(filter)
#define leave goto kz_left
#endif

KZ_BEGIN

/* ---- Types. */
#ifndef VOID
#define VOID void
#endif
typedef void *PVOID, *LPVOID;
typedef const void *LPCVOID, *PCVOID;
typedef char CHAR, *PCHAR, *PSTR, *LPSTR, *PSZ, CCHAR, *PCCHAR;
typedef const char *PCSTR, *LPCSTR, *PCSZ;
typedef wchar_t WCHAR, *PWCHAR, *LPWCH, *PWCH, *PWSTR, *LPWSTR, *NTSTRSAFE_PWSTR;
typedef const WCHAR *PCWSTR, *LPCWSTR, *PCWCH, *LPCWCH, *NTSTRSAFE_PCWSTR;
typedef uint8_t UCHAR, *PUCHAR, BYTE, *PBYTE, BOOLEAN, *PBOOLEAN, UINT8, *PUINT8;
typedef int8_t INT8, *PINT8;
typedef int16_t SHORT, *PSHORT, CSHORT, *PCSHORT, INT16, *PINT16;
typedef uint16_t USHORT, *PUSHORT, WORD, *PWORD, UINT16, *PUINT16;
typedef int32_t LONG, *PLONG, INT, *PINT, BOOL, *PBOOL, INT32, *PINT32, LONG32, *PLONG32, HRESULT;
typedef uint32_t ULONG, *PULONG, UINT, *PUINT, DWORD, *PDWORD, UINT32, *PUINT32, ULONG32, *PULONG32, CLONG, *PCLONG;
#ifdef __clang__
typedef int64_t LONGLONG, *PLONGLONG, LONG64, *PLONG64, INT64, *PINT64;
typedef uint64_t ULONGLONG, *PULONGLONG, ULONG64, *PULONG64, UINT64, *PUINT64, DWORD64, *PDWORD64, DWORDLONG;
#else
typedef long long LONGLONG, *PLONGLONG, LONG64, *PLONG64, INT64, *PINT64;
typedef unsigned long long ULONGLONG, *PULONGLONG, ULONG64, *PULONG64, UINT64, *PUINT64, DWORD64, *PDWORD64, DWORDLONG;
#endif
typedef intptr_t LONG_PTR, *PLONG_PTR, INT_PTR, *PINT_PTR, SSIZE_T;
typedef uintptr_t ULONG_PTR, *PULONG_PTR, UINT_PTR, *PUINT_PTR, DWORD_PTR, *PDWORD_PTR, KAFFINITY;
typedef size_t SIZE_T, *PSIZE_T;
typedef PVOID HANDLE, *PHANDLE;
typedef LONG NTSTATUS, *PNTSTATUS;
typedef LONG KPRIORITY;
typedef UCHAR KIRQL, *PKIRQL;
typedef CCHAR KPROCESSOR_MODE;
typedef ULONG ACCESS_MASK, *PACCESS_MASK, DEVICE_TYPE, LOGICAL, *PLOGICAL, LCID, *PLCID;
typedef USHORT LANGID;
typedef PVOID PSID, PSECURITY_DESCRIPTOR;
typedef ULONG SECURITY_INFORMATION, *PSECURITY_INFORMATION;
typedef enum _MODE { KernelMode = 0, UserMode = 1, MaximumMode = 2 } MODE;
typedef enum _EVENT_TYPE { NotificationEvent, SynchronizationEvent } EVENT_TYPE;
typedef enum _TIMER_TYPE { NotificationTimer, SynchronizationTimer } TIMER_TYPE;
typedef enum _WAIT_TYPE { WaitAll, WaitAny } WAIT_TYPE;
#define MAXIMUM_WAIT_OBJECTS 64

#define TRUE 1
#define FALSE 0
#define MAXUCHAR 0xff
#define MAXUSHORT 0xffff
#define MAXLONG 0x7fffffff
#define MAXULONG 0xffffffff
#define MAXLONGLONG 0x7fffffffffffffffLL
#define MINLONG ((LONG)0x80000000)
#define UNICODE_NULL ((WCHAR)0)
#define ANSI_NULL ((CHAR)0)
#define UNICODE_STRING_MAX_BYTES ((USHORT)65534)
#define UNICODE_STRING_MAX_CHARS 32767
#define MAX_PATH 260
#define INVALID_HANDLE_VALUE ((HANDLE)(LONG_PTR)-1)
#define MAXIMUM_FILENAME_LENGTH 256
#define LOWORD(l) ((WORD)((ULONG_PTR)(l) & 0xffff))
#define HIWORD(l) ((WORD)((ULONG_PTR)(l) >> 16 & 0xffff))
#define LOBYTE(w) ((BYTE)((ULONG_PTR)(w) & 0xff))
#define HIBYTE(w) ((BYTE)((ULONG_PTR)(w) >> 8 & 0xff))
#define HandleToULong(h) ((ULONG)(ULONG_PTR)(h))
#define HandleToUlong(h) HandleToULong(h)
#define HandleToLong(h) ((LONG)(LONG_PTR)(h))
#define ULongToHandle(n) ((HANDLE)(ULONG_PTR)(n))
#define UlongToHandle(n) ULongToHandle(n)
#define LongToHandle(n) ((HANDLE)(LONG_PTR)(n))
#define PtrToUlong(p) ((ULONG)(ULONG_PTR)(p))
#define PtrToULong(p) PtrToUlong(p)
#define ULongToPtr(n) ((PVOID)(ULONG_PTR)(n))
#define UlongToPtr(n) ULongToPtr(n)
#define Add2Ptr(p, n) ((PVOID)((PUCHAR)(p) + (n)))
#define PtrOffset(base, p) ((ULONG)((ULONG_PTR)(p) - (ULONG_PTR)(base)))

KZ_ASSERT(sizeof(WCHAR) == 2, "compile with -fshort-wchar");

typedef union _LARGE_INTEGER {
    struct {
        ULONG LowPart;
        LONG HighPart;
    };
    struct {
        ULONG LowPart;
        LONG HighPart;
    } u;
    LONGLONG QuadPart;
} LARGE_INTEGER, *PLARGE_INTEGER;

typedef union _ULARGE_INTEGER {
    struct {
        ULONG LowPart;
        ULONG HighPart;
    };
    struct {
        ULONG LowPart;
        ULONG HighPart;
    } u;
    ULONGLONG QuadPart;
} ULARGE_INTEGER, *PULARGE_INTEGER;

typedef struct _LUID {
    ULONG LowPart;
    LONG HighPart;
} LUID, *PLUID;

typedef struct _GUID {
    ULONG Data1;
    USHORT Data2;
    USHORT Data3;
    UCHAR Data4[8];
} GUID, *PGUID, *LPGUID;
typedef const GUID *PCGUID, *LPCGUID;
#ifdef __cplusplus
typedef const GUID &REFGUID;
#else
typedef const GUID *REFGUID;
#endif
#ifndef DEFINE_GUID
#define DEFINE_GUID(name, l, w1, w2, b1, b2, b3, b4, b5, b6, b7, b8) KZ_EXTERN_C const GUID name
#endif
#define IsEqualGUID(a, b) (memcmp((a), (b), sizeof(GUID)) == 0)
#define InlineIsEqualGUID(a, b) IsEqualGUID(a, b)

typedef struct _UNICODE_STRING {
    USHORT Length;
    USHORT MaximumLength;
    PWSTR Buffer;
} UNICODE_STRING, *PUNICODE_STRING;
typedef const UNICODE_STRING *PCUNICODE_STRING;

typedef struct _STRING {
    USHORT Length;
    USHORT MaximumLength;
    PCHAR Buffer;
} STRING, *PSTRING, ANSI_STRING, *PANSI_STRING, OEM_STRING, *POEM_STRING, UTF8_STRING, *PUTF8_STRING;
typedef const STRING *PCSTRING, *PCANSI_STRING, *PCOEM_STRING;

typedef struct _LIST_ENTRY {
    struct _LIST_ENTRY *Flink;
    struct _LIST_ENTRY *Blink;
} LIST_ENTRY, *PLIST_ENTRY, *PRLIST_ENTRY;
typedef const LIST_ENTRY *PCLIST_ENTRY;

typedef struct _SINGLE_LIST_ENTRY {
    struct _SINGLE_LIST_ENTRY *Next;
} SINGLE_LIST_ENTRY, *PSINGLE_LIST_ENTRY;

typedef struct _OBJECT_ATTRIBUTES {
    ULONG Length;
    HANDLE RootDirectory;
    PUNICODE_STRING ObjectName;
    ULONG Attributes;
    PVOID SecurityDescriptor;
    PVOID SecurityQualityOfService;
} OBJECT_ATTRIBUTES, *POBJECT_ATTRIBUTES;

typedef struct _CLIENT_ID {
    HANDLE UniqueProcess;
    HANDLE UniqueThread;
} CLIENT_ID, *PCLIENT_ID;

typedef struct _EXCEPTION_RECORD {
    NTSTATUS ExceptionCode;
    ULONG ExceptionFlags;
    struct _EXCEPTION_RECORD *ExceptionRecord;
    PVOID ExceptionAddress;
    ULONG NumberParameters;
    ULONG_PTR ExceptionInformation[15];
} EXCEPTION_RECORD, *PEXCEPTION_RECORD;
typedef struct _EXCEPTION_POINTERS {
    PEXCEPTION_RECORD ExceptionRecord;
    PVOID ContextRecord;
} EXCEPTION_POINTERS, *PEXCEPTION_POINTERS;

KZ_ASSERT(sizeof(LARGE_INTEGER) == 8 && sizeof(GUID) == 16 && sizeof(UNICODE_STRING) == 16 && sizeof(LIST_ENTRY) == 16, "layout");
KZ_ASSERT(sizeof(OBJECT_ATTRIBUTES) == 0x30 && sizeof(CLIENT_ID) == 0x10, "layout");

#define OBJ_INHERIT 0x00000002
#define OBJ_PERMANENT 0x00000010
#define OBJ_EXCLUSIVE 0x00000020
#define OBJ_CASE_INSENSITIVE 0x00000040
#define OBJ_OPENIF 0x00000080
#define OBJ_OPENLINK 0x00000100
#define OBJ_KERNEL_HANDLE 0x00000200
#define OBJ_FORCE_ACCESS_CHECK 0x00000400
#define InitializeObjectAttributes(p, name, attributes, root, security)                                                                                        \
    do {                                                                                                                                                       \
        (p)->Length = sizeof(OBJECT_ATTRIBUTES);                                                                                                               \
        (p)->RootDirectory = (root);                                                                                                                           \
        (p)->Attributes = (attributes);                                                                                                                        \
        (p)->ObjectName = (name);                                                                                                                              \
        (p)->SecurityDescriptor = (security);                                                                                                                  \
        (p)->SecurityQualityOfService = NULL;                                                                                                                  \
    } while (0)

#define CONTAINING_RECORD(address, type, field) ((type *)((PUCHAR)(address) - offsetof(type, field)))
#define FIELD_OFFSET(type, field) ((LONG)offsetof(type, field))
#define UFIELD_OFFSET(type, field) ((ULONG)offsetof(type, field))
#define RTL_FIELD_SIZE(type, field) (sizeof(((type *)0)->field))
#define RTL_SIZEOF_THROUGH_FIELD(type, field) (offsetof(type, field) + RTL_FIELD_SIZE(type, field))
#define RTL_CONTAINS_FIELD(s, size, field) (((PCHAR)(&(s)->field) + sizeof((s)->field)) <= ((PCHAR)(s) + (size)))
#define RTL_NUMBER_OF(a) (sizeof(a) / sizeof((a)[0]))
#define ARRAYSIZE(a) RTL_NUMBER_OF(a)
#define _countof(a) RTL_NUMBER_OF(a)
#define FlagOn(flags, one) ((flags) & (one))
#define BooleanFlagOn(flags, one) ((BOOLEAN)(((flags) & (one)) != 0))
#define SetFlag(flags, one) ((flags) |= (one))
#define ClearFlag(flags, one) ((flags) &= ~(one))
#ifdef __cplusplus
KZ_END
template <typename T> constexpr T *KzUnconst(const T *text)
{
    return const_cast<T *>(text);
}
KZ_BEGIN
#define RTL_CONSTANT_STRING(text) {(USHORT)(sizeof(text) - sizeof((text)[0])), (USHORT)sizeof(text), KzUnconst(text)}
#else
#define RTL_CONSTANT_STRING(text) {sizeof(text) - sizeof((text)[0]), sizeof(text), (PVOID)(text)}
#endif
#define DECLARE_CONST_UNICODE_STRING(name, text) const UNICODE_STRING name = RTL_CONSTANT_STRING(text)
#define DECLARE_UNICODE_STRING_SIZE(name, letters) \
    WCHAR name##_buffer[letters];                  \
    UNICODE_STRING name = {0, (letters) * sizeof(WCHAR), name##_buffer}
#define DECLARE_GLOBAL_CONST_UNICODE_STRING(name, text) static const UNICODE_STRING name = RTL_CONSTANT_STRING(text)
#define ROUND_TO_SIZE(n, to) ((((ULONG_PTR)(n)) + ((to) - 1)) & ~(ULONG_PTR)((to) - 1))
#define IS_ALIGNED(p, to) (((ULONG_PTR)(p) & ((to) - 1)) == 0)
#define WORD_ALIGN(n) ALIGN_UP_BY(n, 2)
#define LONG_ALIGN(n) ALIGN_UP_BY(n, 4)
#define LongAlign(n) ALIGN_UP_BY(n, 4)
#define QuadAlign(n) ALIGN_UP_BY(n, 8)
#define ALIGN_DOWN_BY(n, to) ((ULONG_PTR)(n) & ~((ULONG_PTR)(to) - 1))
#define ALIGN_UP_BY(n, to) ALIGN_DOWN_BY((ULONG_PTR)(n) + (to) - 1, to)
#define ALIGN_DOWN(n, type) ALIGN_DOWN_BY(n, sizeof(type))
#define ALIGN_UP(n, type) ALIGN_UP_BY(n, sizeof(type))
#define ALIGN_DOWN_POINTER_BY(p, to) ((PVOID)ALIGN_DOWN_BY(p, to))
#define ALIGN_UP_POINTER_BY(p, to) ((PVOID)ALIGN_UP_BY(p, to))
#ifndef __cplusplus
#define max(a, b) (((a) > (b)) ? (a) : (b))
#define min(a, b) (((a) < (b)) ? (a) : (b))
#endif
#define NT_SUCCESS(status) (((NTSTATUS)(status)) >= 0)
#define NT_INFORMATION(status) ((((ULONG)(status)) >> 30) == 1)
#define NT_WARNING(status) ((((ULONG)(status)) >> 30) == 2)
#define NT_ERROR(status) ((((ULONG)(status)) >> 30) == 3)

#include <ntstatus.h>

/* ---- Lists. */
FORCEINLINE void InitializeListHead(PLIST_ENTRY head)
{
    head->Flink = head->Blink = head;
}

FORCEINLINE BOOLEAN IsListEmpty(const LIST_ENTRY *head)
{
    return head->Flink == head;
}

KZ_BEGIN
VOID KzBrokenList(PLIST_ENTRY Entry, PCSTR Call);
KZ_END

FORCEINLINE BOOLEAN RemoveEntryList(PLIST_ENTRY entry)
{
    PLIST_ENTRY next = entry->Flink, before = entry->Blink;
    if (next->Blink != entry || before->Flink != entry) {
        KzBrokenList(entry, "RemoveEntryList");
        return FALSE;
    }
    before->Flink = next;
    next->Blink = before;
    return next == before;
}

FORCEINLINE void InsertTailList(PLIST_ENTRY head, PLIST_ENTRY entry)
{
    PLIST_ENTRY before = head->Blink;
    if (before->Flink != head) {
        KzBrokenList(head, "InsertTailList");
        return;
    }
    entry->Flink = head;
    entry->Blink = before;
    before->Flink = entry;
    head->Blink = entry;
}

FORCEINLINE void InsertHeadList(PLIST_ENTRY head, PLIST_ENTRY entry)
{
    PLIST_ENTRY next = head->Flink;
    if (next->Blink != head) {
        KzBrokenList(head, "InsertHeadList");
        return;
    }
    entry->Flink = next;
    entry->Blink = head;
    next->Blink = entry;
    head->Flink = entry;
}

FORCEINLINE PLIST_ENTRY RemoveHeadList(PLIST_ENTRY head)
{
    PLIST_ENTRY entry = head->Flink;
    RemoveEntryList(entry);
    return entry;
}

FORCEINLINE PLIST_ENTRY RemoveTailList(PLIST_ENTRY head)
{
    PLIST_ENTRY entry = head->Blink;
    RemoveEntryList(entry);
    return entry;
}

FORCEINLINE void AppendTailList(PLIST_ENTRY head, PLIST_ENTRY list)
{
    PLIST_ENTRY end = head->Blink;
    head->Blink->Flink = list;
    head->Blink = list->Blink;
    list->Blink->Flink = head;
    list->Blink = end;
}

FORCEINLINE void PushEntryList(PSINGLE_LIST_ENTRY head, PSINGLE_LIST_ENTRY entry)
{
    entry->Next = head->Next;
    head->Next = entry;
}

FORCEINLINE PSINGLE_LIST_ENTRY PopEntryList(PSINGLE_LIST_ENTRY head)
{
    PSINGLE_LIST_ENTRY first = head->Next;
    if (first)
        head->Next = first->Next;
    return first;
}

/* ---- Interlocked calls. */
FORCEINLINE LONG InterlockedIncrement(LONG volatile *p)
{
    return __atomic_add_fetch(p, 1, __ATOMIC_SEQ_CST);
}

FORCEINLINE LONG InterlockedDecrement(LONG volatile *p)
{
    return __atomic_sub_fetch(p, 1, __ATOMIC_SEQ_CST);
}

FORCEINLINE LONG InterlockedExchange(LONG volatile *p, LONG to)
{
    return __atomic_exchange_n(p, to, __ATOMIC_SEQ_CST);
}

FORCEINLINE LONG InterlockedExchangeAdd(LONG volatile *p, LONG by)
{
    return __atomic_fetch_add(p, by, __ATOMIC_SEQ_CST);
}

FORCEINLINE LONG InterlockedAdd(LONG volatile *p, LONG by)
{
    return __atomic_add_fetch(p, by, __ATOMIC_SEQ_CST);
}

FORCEINLINE LONG InterlockedAnd(LONG volatile *p, LONG bits)
{
    return __atomic_fetch_and(p, bits, __ATOMIC_SEQ_CST);
}

FORCEINLINE LONG InterlockedOr(LONG volatile *p, LONG bits)
{
    return __atomic_fetch_or(p, bits, __ATOMIC_SEQ_CST);
}

FORCEINLINE LONG InterlockedXor(LONG volatile *p, LONG bits)
{
    return __atomic_fetch_xor(p, bits, __ATOMIC_SEQ_CST);
}

FORCEINLINE LONG InterlockedCompareExchange(LONG volatile *p, LONG to, LONG from)
{
    __atomic_compare_exchange_n(p, &from, to, 0, __ATOMIC_SEQ_CST, __ATOMIC_SEQ_CST);
    return from;
}

FORCEINLINE SHORT InterlockedIncrement16(SHORT volatile *p)
{
    return __atomic_add_fetch(p, 1, __ATOMIC_SEQ_CST);
}

FORCEINLINE SHORT InterlockedDecrement16(SHORT volatile *p)
{
    return __atomic_sub_fetch(p, 1, __ATOMIC_SEQ_CST);
}

FORCEINLINE LONG64 InterlockedIncrement64(LONG64 volatile *p)
{
    return __atomic_add_fetch(p, 1, __ATOMIC_SEQ_CST);
}

FORCEINLINE LONG64 InterlockedDecrement64(LONG64 volatile *p)
{
    return __atomic_sub_fetch(p, 1, __ATOMIC_SEQ_CST);
}

FORCEINLINE LONG64 InterlockedExchange64(LONG64 volatile *p, LONG64 to)
{
    return __atomic_exchange_n(p, to, __ATOMIC_SEQ_CST);
}

FORCEINLINE LONG64 InterlockedExchangeAdd64(LONG64 volatile *p, LONG64 by)
{
    return __atomic_fetch_add(p, by, __ATOMIC_SEQ_CST);
}

FORCEINLINE LONG64 InterlockedAdd64(LONG64 volatile *p, LONG64 by)
{
    return __atomic_add_fetch(p, by, __ATOMIC_SEQ_CST);
}

FORCEINLINE LONG64 InterlockedOr64(LONG64 volatile *p, LONG64 bits)
{
    return __atomic_fetch_or(p, bits, __ATOMIC_SEQ_CST);
}

FORCEINLINE LONG64 InterlockedAnd64(LONG64 volatile *p, LONG64 bits)
{
    return __atomic_fetch_and(p, bits, __ATOMIC_SEQ_CST);
}

FORCEINLINE LONG64 InterlockedCompareExchange64(LONG64 volatile *p, LONG64 to, LONG64 from)
{
    __atomic_compare_exchange_n(p, &from, to, 0, __ATOMIC_SEQ_CST, __ATOMIC_SEQ_CST);
    return from;
}

FORCEINLINE PVOID InterlockedExchangePointer(PVOID volatile *p, PVOID to)
{
    return __atomic_exchange_n(p, to, __ATOMIC_SEQ_CST);
}

FORCEINLINE PVOID InterlockedCompareExchangePointer(PVOID volatile *p, PVOID to, PVOID from)
{
    __atomic_compare_exchange_n(p, &from, to, 0, __ATOMIC_SEQ_CST, __ATOMIC_SEQ_CST);
    return from;
}

FORCEINLINE BOOLEAN InterlockedBitTestAndSet(LONG volatile *p, LONG bit)
{
    return (__atomic_fetch_or(p + bit / 32, (LONG)(1u << bit % 32), __ATOMIC_SEQ_CST) >> bit % 32 & 1) != 0;
}

FORCEINLINE BOOLEAN InterlockedBitTestAndReset(LONG volatile *p, LONG bit)
{
    return (__atomic_fetch_and(p + bit / 32, (LONG) ~(1u << bit % 32), __ATOMIC_SEQ_CST) >> bit % 32 & 1) != 0;
}

#define InterlockedIncrementAcquire InterlockedIncrement
#define InterlockedDecrementRelease InterlockedDecrement
#define InterlockedCompareExchangeAcquire InterlockedCompareExchange
#define InterlockedCompareExchangeRelease InterlockedCompareExchange
#define InterlockedIncrementNoFence InterlockedIncrement
#define InterlockedDecrementNoFence InterlockedDecrement
#define InterlockedExchangeNoFence InterlockedExchange
#define InterlockedAddNoFence InterlockedAdd
#define InterlockedAddNoFence64 InterlockedAdd64
#define InterlockedIncrementSizeT(p) InterlockedIncrement64((LONG64 volatile *)(p))
#define InterlockedDecrementSizeT(p) InterlockedDecrement64((LONG64 volatile *)(p))
#define ReadAcquire(p) __atomic_load_n((p), __ATOMIC_ACQUIRE)
#define ReadNoFence(p) __atomic_load_n((p), __ATOMIC_RELAXED)
#define ReadRaw(p) __atomic_load_n((p), __ATOMIC_RELAXED)
#define ReadULongNoFence(p) __atomic_load_n((p), __ATOMIC_RELAXED)
#define ReadULongAcquire(p) __atomic_load_n((p), __ATOMIC_ACQUIRE)
#define ReadPointerAcquire(p) __atomic_load_n((p), __ATOMIC_ACQUIRE)
#define ReadPointerNoFence(p) __atomic_load_n((p), __ATOMIC_RELAXED)
#define WriteRelease(p, n) __atomic_store_n((p), (n), __ATOMIC_RELEASE)
#define WriteNoFence(p, n) __atomic_store_n((p), (n), __ATOMIC_RELAXED)
#define WriteULongRelease(p, n) __atomic_store_n((p), (n), __ATOMIC_RELEASE)
#define WritePointerRelease(p, n) __atomic_store_n((p), (n), __ATOMIC_RELEASE)
#define MemoryBarrier() __atomic_thread_fence(__ATOMIC_SEQ_CST)
#define KeMemoryBarrier() __atomic_thread_fence(__ATOMIC_SEQ_CST)
#define YieldProcessor() ((void)0)

/* A list that is pushed to and popped from without a lock. */
typedef struct DECLSPEC_ALIGN(16) _SLIST_ENTRY {
    struct _SLIST_ENTRY *Next;
} SLIST_ENTRY, *PSLIST_ENTRY;

typedef union DECLSPEC_ALIGN(16) _SLIST_HEADER {
    struct {
        PSLIST_ENTRY First;
        ULONG64 Depth;
    };
    ULONG64 Alignment[2];
} SLIST_HEADER, *PSLIST_HEADER;

void InitializeSListHead(PSLIST_HEADER ListHead);
PSLIST_ENTRY InterlockedPushEntrySList(PSLIST_HEADER ListHead, PSLIST_ENTRY ListEntry);
PSLIST_ENTRY InterlockedPopEntrySList(PSLIST_HEADER ListHead);
PSLIST_ENTRY InterlockedFlushSList(PSLIST_HEADER ListHead);
USHORT QueryDepthSList(PSLIST_HEADER ListHead);
#define ExInitializeSListHead InitializeSListHead
#define ExInterlockedPushEntrySList(head, entry, lock) InterlockedPushEntrySList((head), (entry))
#define ExInterlockedPopEntrySList(head, lock) InterlockedPopEntrySList((head))
#define ExInterlockedFlushSList InterlockedFlushSList
#define ExQueryDepthSList QueryDepthSList

void KzBreak(void);

KZ_END

#include <kztext.h>

#endif
