/* The layer turns paging writes in place: those are the pages of the cache, which programs read. */
#define LAYER_PLACE
#include "../drivers/layer.c"
