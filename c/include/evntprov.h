/* Event tracing for drivers: its types and routines are in ntifs.h here. */
#include <ntifs.h>
