/* Structured exceptions: their words are in ntdef.h here. */
#include <ntdef.h>
