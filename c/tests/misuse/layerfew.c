/* The layer answers paging reads with fewer bytes than there are: the rest of the page is zeros. */
#define LAYER_FEW
#include "../drivers/layer.c"
