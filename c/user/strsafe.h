/* The kit's safe texts, for programs. */
#ifndef KZ_STRSAFE_H
#define KZ_STRSAFE_H

#include "windows.h"

#define STRSAFE_E_INSUFFICIENT_BUFFER ((HRESULT)0x8007007a)
#define STRSAFE_E_INVALID_PARAMETER ((HRESULT)0x80070057)

KZ_BEGIN

HRESULT StringCchPrintfA(LPSTR To, size_t Room, LPCSTR Format, ...);
HRESULT StringCchPrintfW(LPWSTR To, size_t Room, LPCWSTR Format, ...);
HRESULT StringCchCopyA(LPSTR To, size_t Room, LPCSTR From);
HRESULT StringCchCopyW(LPWSTR To, size_t Room, LPCWSTR From);
HRESULT StringCchCatA(LPSTR To, size_t Room, LPCSTR From);
HRESULT StringCchCatW(LPWSTR To, size_t Room, LPCWSTR From);
HRESULT StringCchLengthA(LPCSTR Text, size_t Most, size_t *Length);
HRESULT StringCchLengthW(LPCWSTR Text, size_t Most, size_t *Length);

KZ_END

#define StringCbPrintfA(to, size, ...) StringCchPrintfA((to), (size), __VA_ARGS__)
#define StringCbPrintfW(to, size, ...) StringCchPrintfW((to), (size) / sizeof(WCHAR), __VA_ARGS__)
#define StringCbCopyW(to, size, from) StringCchCopyW((to), (size) / sizeof(WCHAR), (from))
#define StringCbCatW(to, size, from) StringCchCatW((to), (size) / sizeof(WCHAR), (from))
#define StringCchPrintf StringCchPrintfA
#define StringCchCopy StringCchCopyA
#define StringCchCat StringCchCatA
#define StringCchLength StringCchLengthA

#endif
