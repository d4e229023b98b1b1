/* Expectations of what the last request brought about. */
#ifndef KZ_RUN_EXPECT_H
#define KZ_RUN_EXPECT_H

#include <stdbool.h>

/* The request `expect ..`; false if the words aren't understood. */
bool kz_expect(const char *words);

#endif
