/* The layer with blocks of 16 bytes: the last one of a file is cut where that ends, and can't be read any more. */
#define LAYER_TAIL
#include "../drivers/layer.c"
