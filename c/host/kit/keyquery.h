/* The kit's classes of information on values of keys. */
#ifndef KZ_KIT_KEYQUERY_H
#define KZ_KIT_KEYQUERY_H

#include "kit/key.h"

/* As much as there is room for. */
NTSTATUS kz_show_value(const KzValue *value, KEY_VALUE_INFORMATION_CLASS class, PVOID information, ULONG length, PULONG needed, const char *call);

#endif
