/* How the words of a command are read, by a letter for each: F V I H O C W ids, n a p a name, an altitude and a path, N L B M numbers, X bytes, y k m c d words of a list, v u w verdicts,
 * and r o h what may be missing. */
#ifndef ORDERS_READ_H
#define ORDERS_READ_H

#include "script.h"

bool or_read_id(char letter, OrText word, uint64_t *id);
bool or_read(OrAsked *asked, const char *reads, const OrText *words, size_t count);
uint32_t or_misnamed(const OrAsked *asked);
uint32_t or_look_up(const OrScript *script, OrAsked *asked);

#endif
