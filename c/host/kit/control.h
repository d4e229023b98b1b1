/* What a driver asks by itself of a file, a directory or a volume, where the manager has no operation for it: those below it hear of it as of a client's. */
#ifndef KZ_KIT_CONTROL_H
#define KZ_KIT_CONTROL_H

#include "host.h"

/* Of another major function, as its parameters say it. */
NTSTATUS kz_ask_as(PFLT_INSTANCE instance, PFLT_IO_PARAMETER_BLOCK iopb, PULONG done, const char *call);

#endif
