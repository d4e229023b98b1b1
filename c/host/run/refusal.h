/* Calls of drivers that are refused. */
#ifndef KZ_RUN_REFUSAL_H
#define KZ_RUN_REFUSAL_H

#include "host.h"

void kz_note_answer(const char *call, NTSTATUS status);
extern const struct KzModule kz_refusal_module;

#endif
