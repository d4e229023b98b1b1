/* Basic types: they are in ntdef.h here. */
#include <ntdef.h>
