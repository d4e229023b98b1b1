/* The layer writes a mark of its own under a lock that it takes in paging writes too: a write that makes the file larger and the lazy writer wait for each other. */
#define LAYER_ORDER
#include "../../drivers/layer.c"
