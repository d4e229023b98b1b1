/* After it DEFINE_GUID defines, and doesn't only declare. */
#ifndef INITGUID
#define INITGUID
#endif
#include <ntdef.h>
#undef DEFINE_GUID
#ifdef __cplusplus
#define KZ_GUID extern "C" const GUID
#else
#define KZ_GUID const GUID
#endif
#define DEFINE_GUID(name, l, w1, w2, b1, b2, b3, b4, b5, b6, b7, b8) \
    KZ_GUID name __attribute__((weak)) = {(l), (w1), (w2), {(b1), (b2), (b3), (b4), (b5), (b6), (b7), (b8)}}
