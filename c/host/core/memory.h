/* Memory of the host's own, which must be there. It is all zeros. A server keeps some back: where there is no other, that is given for it. */
#ifndef KZ_CORE_MEMORY_H
#define KZ_CORE_MEMORY_H

#include "host.h"

void *kz_memory(size_t size);
char *kz_copy_of(const char *text);
/* Takes what is missing of the two blocks that are kept back: how many there are. */
unsigned kz_keep_back(void);
/* Gives one of them back. False: there is none. */
bool kz_give_way(void);

#endif
