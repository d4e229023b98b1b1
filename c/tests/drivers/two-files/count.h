#include <fltKernel.h>

extern PFLT_FILTER gFilterHandle;
extern LONG gCount;
FLT_PRE_OPERATION_CALLBACK CountPreFlush;
