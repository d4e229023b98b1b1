/* All that the kit's headers declare: what a binary may call, and what stubs are made of (stubs.awk). */
#include "host.h"

#include <TraceLoggingProvider.h>
#include <aux_klib.h>
#include <bcrypt.h>
#include <evntrace.h>
#include <intrin.h>
#include <ntimage.h>
#include <ntintsafe.h>
#include <ntstrsafe.h>
#include <wdmsec.h>
#include <wmistr.h>
