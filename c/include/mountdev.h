/* Included by some drivers: what they use of it stands in wdm.h. */
#include <wdm.h>
