/* Replies: to where each goes, and how it is printed. */
#ifndef KZ_RUN_REPLY_H
#define KZ_RUN_REPLY_H

#include "host.h"

void kz_print_reply(KzReply reply, NTSTATUS other, const uint8_t *bytes, size_t length);

#endif
