/* Of WMI: what event tracing uses. */
#include <evntrace.h>
