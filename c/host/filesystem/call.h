/* Calls of the base: those that aren't about a file's bytes are answered here, and of the others the names and numbers are kept. */
#ifndef KZ_FILESYSTEM_CALL_H
#define KZ_FILESYSTEM_CALL_H

#include "host.h"

/* Calls of the base. What isn't one of a file's bytes is answered here: true. */
bool kz_answers_call(KzOp *op, const KazdrinData *call, NTSTATUS *status);
/* The file system that has the bytes took it. */
void kz_note_call(KzOp *op, const KazdrinData *call);
/* The names of the files at the root, a line each; false: there are more than fit. */
bool kz_list_names_of(PFLT_VOLUME volume, uint8_t *room, size_t size, size_t *length);

#endif
