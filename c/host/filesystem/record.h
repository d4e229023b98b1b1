/* Files, whatever they are called. */
#ifndef KZ_FILESYSTEM_RECORD_H
#define KZ_FILESYSTEM_RECORD_H

#include "host.h"
#include "filesystem/tree.h"

extern const struct KzModule kz_record_module;
/* It isn't there yet; its unnamed stream is. */
KzRecord *kz_new_record(PFLT_VOLUME volume, const char *text);
/* In no order. */
KzRecord *kz_first_record(void);
void kz_free_record(KzRecord *record);
/* A new file is there from now on. */
void kz_begin_record(KzRecord *record, bool is_directory);
/* It isn't there any more, nor is any of its streams. */
void kz_end_record(KzRecord *record);
/* So much of the volume as bytes of that size take. */
uint64_t kz_allocated(PFLT_VOLUME volume, uint64_t size);
/* It is no reparse point any more. */
void kz_forget_tag(KzRecord *record);
/* NULL: nothing. */
void kz_copy_beside(KzBeside *to, const KzBeside *from);
void kz_keep_bytes(KzBytes *kept, const void *bytes, size_t length);

#endif
