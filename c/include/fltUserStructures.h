/* What the filter manager tells programs: its structures are in fltKernel.h here. */
#include <fltKernel.h>
