/* Where each reply goes beside what is printed: to a program that has clients of its own, as c/serve. */
#include "run/sink.h"

static KzSink *sink;

void kz_set_sink(KzSink *to)
{
    sink = to;
}

void kz_pass_reply(KzReply reply, const uint8_t *bytes, size_t length)
{
    if (sink)
        sink(reply, bytes, length);
}
