/* Security descriptors in one piece, and what a call asks of them. */
#ifndef KZ_LIB_DESCRIPTOR_H
#define KZ_LIB_DESCRIPTOR_H

#include "host.h"

/* One of nobody's, with no lists: that of an object which nobody secured. */
#define KZ_NO_DESCRIPTOR ((const uint8_t[20]){1, 0, 0, 0x80})

bool kz_is_descriptor(const void *bytes, size_t length);
/* Writes the parts of two descriptors, which may be those that `of` names alone, and answers how long that is. There is room for both. */
size_t kz_join_descriptors(const void *one, SECURITY_INFORMATION of_one, const void *other, SECURITY_INFORMATION of_other, void *to);

#endif
