/* What the loader of drivers' binaries hands down; without it there are none. */
#include "core/binary.h"

KzBinaries kz_binaries;
_Thread_local const void *kz_stub_caller;
