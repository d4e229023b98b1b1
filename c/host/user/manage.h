/* A program loads, unloads, attaches and detaches filters, and asks which are there. */
#ifndef KZ_USER_MANAGE_H
#define KZ_USER_MANAGE_H

#include "host.h"
#include "user/program.h"

void kz_free_found(KzObject *object);

#endif
