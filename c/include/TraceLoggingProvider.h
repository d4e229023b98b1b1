/* TraceLogging: as where no session listens, nothing is written. */
#ifndef KZ_TRACELOGGING_H
#define KZ_TRACELOGGING_H

#include <ntifs.h>

typedef const struct _TLG_PROVIDER {
    int Unused;
} *TraceLoggingHProvider;
#define TRACELOGGING_DECLARE_PROVIDER(handle) extern TraceLoggingHProvider handle
#define TRACELOGGING_DEFINE_PROVIDER(handle, name, ...) TraceLoggingHProvider handle
#define TraceLoggingRegister(handle) ((void)(handle), STATUS_SUCCESS)
#define TraceLoggingRegisterEx(handle, callback, context) ((void)(handle), (void)(callback), (void)(context), STATUS_SUCCESS)
#define TraceLoggingUnregister(handle) ((void)(handle))
#define TraceLoggingProviderEnabled(handle, level, keyword) ((void)(handle), FALSE)
#define TraceLoggingWrite(handle, ...) ((void)(handle))
#define TraceLoggingWriteActivity(handle, ...) ((void)(handle))

#endif
