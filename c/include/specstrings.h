/* Annotations: they are in sal.h here. */
#include <sal.h>
