/* The layer of c/tests/drivers, by every scheduler. */
#include "../drivers/layer.c"
