/* The layer reads the head of a file under a lock that it takes in paging reads too: it waits for itself. */
#define LAYER_LOCK
#include "../drivers/layer.c"
