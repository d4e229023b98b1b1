/* The answer of an operation: shown to a postoperation in the kit's structures, and taken as a callback left it. */
#ifndef KZ_MANAGER_ANSWER_H
#define KZ_MANAGER_ANSWER_H

#include "host.h"

void kz_show_post(KzOp *op, PFLT_INSTANCE instance);
void kz_take_post(KzOp *op);
void kz_take_held(KzOp *op);
void kz_serve(KzOp *op);

#endif
