/* Memory of an operation: blocks that live as long as it does, and its callback data. */
#ifndef KZ_MANAGER_BLOCK_H
#define KZ_MANAGER_BLOCK_H

#include "host.h"

void *kz_block(KzOp *op, size_t size);
/* What an answer comes into. */
void *kz_output_block(KzOp *op, size_t size);
/* What a program gave, or gets its answer in: with pages of its own. */
void *kz_caller_block(KzOp *op, size_t size);
/* Room for what the system copies of it. */
void *kz_input_block(KzOp *op, size_t size);
FLT_CALLBACK_DATA *kz_new_data(PETHREAD thread, PFLT_IO_PARAMETER_BLOCK iopb);
void kz_renew_data(KzOp *op);
void *kz_block_of(KzOp *op, const void *bytes, size_t length);

#endif
