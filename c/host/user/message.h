/* Messages between a program and its filter. */
#ifndef KZ_USER_MESSAGE_H
#define KZ_USER_MESSAGE_H

#include "host.h"
#include "user/program.h"

void kz_abort_messages(KzObject *object, NTSTATUS status);

#endif
