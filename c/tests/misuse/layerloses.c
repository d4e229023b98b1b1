/* The layer answers paging writes with fewer bytes than it was given: the rest counts as written. */
#define LAYER_LOSES
#include "../drivers/layer.c"
