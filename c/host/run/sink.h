/* Where each reply goes beside what is printed: to a program that has clients of its own, as c/serve. */
#ifndef KZ_RUN_SINK_H
#define KZ_RUN_SINK_H

#include "host.h"

/* A request's own reply is passed on before those of operations that it let go. */
typedef void KzSink(KzReply reply, const uint8_t *bytes, size_t length);

void kz_set_sink(KzSink *to);
void kz_pass_reply(KzReply reply, const uint8_t *bytes, size_t length);

#endif
