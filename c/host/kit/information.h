/* What a driver asks of a file by itself, and sets: operations of which those below hear. */
#ifndef KZ_KIT_INFORMATION_H
#define KZ_KIT_INFORMATION_H

#include "host.h"

NTSTATUS kz_query_below(PFLT_INSTANCE instance, PFILE_OBJECT object, PVOID to, ULONG room, FILE_INFORMATION_CLASS class, PULONG used, const char *call);
NTSTATUS kz_set_below(PFLT_INSTANCE instance, PFILE_OBJECT object, PVOID from, ULONG length, FILE_INFORMATION_CLASS class, const char *call);

#endif
