/* Input and output that a driver begins by itself, for the calls that make it. */
#ifndef KZ_KIT_IO_H
#define KZ_KIT_IO_H

#include "host.h"

/* A read or a write. With a routine it isn't waited for, and the routine is called once it is over; `data` is what it is called with, if the driver made that itself. */
typedef struct {
    PFLT_INSTANCE instance;
    PFILE_OBJECT object;
    PLARGE_INTEGER offset;
    ULONG length;
    PVOID buffer;
    FLT_IO_OPERATION_FLAGS flags;
    PULONG done;
    PFLT_COMPLETED_ASYNC_IO_CALLBACK routine;
    PVOID context;
    const char *call;
    PFLT_CALLBACK_DATA data;
} KzTransfer;

/* One that is open; what isn't is told. */
KzFile *kz_opened_file(PFILE_OBJECT object, const char *call);
NTSTATUS kz_transfer(const KzTransfer *asked, bool is_write);
NTSTATUS kz_flush_below(PFLT_INSTANCE instance, PFILE_OBJECT object, const char *call);

#endif
