/* The kit's printf: one walk over a format for all calls, whose letters go to a sink. */
#ifndef KZ_LIB_FORMAT_H
#define KZ_LIB_FORMAT_H

#include "host.h"

typedef void (*KzPut)(void *sink, WCHAR letter);

void kz_format(KzPut put, void *sink, const void *format, bool is_wide, va_list *arguments);

#endif
