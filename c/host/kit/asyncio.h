/* What a filter asks of a file by callback data of its own, and doesn't wait for. */
#ifndef KZ_KIT_ASYNCIO_H
#define KZ_KIT_ASYNCIO_H

#include "host.h"

/* A control code: the routine is called once it is over. */
NTSTATUS kz_control_later(PFLT_CALLBACK_DATA data, PFLT_COMPLETED_ASYNC_IO_CALLBACK routine, PVOID context, const char *call);

#endif
