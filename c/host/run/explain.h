/* What the numbers of reports mean. */
#ifndef KZ_RUN_EXPLAIN_H
#define KZ_RUN_EXPLAIN_H

#include <stdbool.h>

/* Whether it is the number of a report, as KZ0101 is one. */
bool kz_is_explained(const char *id);
/* Each of them, with what was done, what Windows does, and how it is mended. */
void kz_each_meaning(void (*say)(const char *id, const char *done, const char *windows, const char *mend, bool is_limit));

#endif
