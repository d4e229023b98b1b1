/* Memory that ends with a page, and the page behind it is shut. */
#ifndef KZ_CORE_EDGE_H
#define KZ_CORE_EDGE_H

#include "core/piece.h"

/* So many bytes of whole pages, with a shut page behind them; NULL if there is no memory. */
void *kz_take_edge(size_t size);
void kz_give_edge(void *pages, size_t size, bool is_open);
/* A touch of a page behind a piece: whether it is one. That a driver does so is told, and the page is open from then on: a text that is read ends there. */
bool kz_touched_edge(const void *address, const void *code, const void *caller, bool is_written);
/* The explorer has no such pages: each read of a driver's code is looked at. */
void kz_look_past(const void *address, size_t size, const void *from);
extern const struct KzModule kz_edge_module;

#endif
