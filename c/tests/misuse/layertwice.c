/* The layer of c/tests/drivers turns cached I/O too: what the disk has was turned twice, and is plain text. */
#define LAYER_TWICE
#include "../drivers/layer.c"
