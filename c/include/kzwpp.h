/* WPP: c/build.sh makes each .tmh file of a driver from this. Its macros do nothing, and their arguments are evaluated by nobody, as where tracing isn't enabled. */
#ifndef KZ_WPP_H
#define KZ_WPP_H

#include <evntrace.h>

#undef WPP_INIT_TRACING
#undef WPP_CLEANUP
#undef DoTraceMessage
#define WPP_INIT_TRACING(...) ((void)0)
#define WPP_CLEANUP(...) ((void)0)
#define WPP_SYSTEMCONTROL(...)
#define WPP_RECORDER_INIT(...) ((void)0)
#define WPP_LEVEL_ENABLED(...) 0
#define WPP_LEVEL_FLAGS_ENABLED(...) 0
#define DoTraceMessage(...) ((void)0)
#ifndef TraceEvents
#define TraceEvents(...) ((void)0)
#endif

#endif
