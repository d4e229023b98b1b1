/* What is told: a line with a number that stays, the kit's call, filter, instance, callback and operation. */
#ifndef KZ_CORE_TOLD_H
#define KZ_CORE_TOLD_H

#include "host.h"
#include "core/messages.h"

/* What is told, and where. */
void kz_tell(KzMessage message, const char *call, const char *format, ...) __attribute__((format(printf, 3, 4)));
void kz_tell_of(const void *object, KzMessage message, const char *call, const char *format, ...) __attribute__((format(printf, 4, 5)));
void kz_tell_refused(const char *call, uint32_t status);
void kz_tell_again(void);
extern const struct KzModule kz_told_module;

#endif
