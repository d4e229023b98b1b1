/* Open files, as filters see them. */
#ifndef KZ_FILESYSTEM_FILEOBJECT_H
#define KZ_FILESYSTEM_FILEOBJECT_H

#include "host.h"

/* By the number that clients have of it. */
KzFile *kz_file_of(uint64_t number);
/* That one is no client's, and its number is nobody's. */
void kz_hide_number(uint64_t handle);
KzFile *kz_file_with(PFILE_OBJECT object);
/* The name in its file object. */
/* It is of the volume itself, and has no name. */
void kz_be_volume(KzFile *file);
void kz_name_object(KzFile *file, const char *path);
KzFile *kz_new_file(PFLT_VOLUME volume, const char *path, bool is_directory);
void kz_file_opened(KzFile *file);
void kz_file_answered(KzFile *file, uint64_t handle);
bool kz_handle_of(KzFile *file, uint64_t *handle);
/* A client's handle as drivers are given it, in a rename's RootDirectory. */
HANDLE kz_root_handle(uint64_t handle);
KzFile *kz_file_of_client(HANDLE root);
/* By a handle that waits for each, or by a driver's call that does. */
bool kz_is_synchronous(const KzOp *op);
void kz_let_go_file(KzFile *file);
/* Its memory alone. */
void kz_free_file(KzFile *file);
void kz_drop_file(uint64_t handle);
void kz_adopt_name(KzFile *file);
void kz_free_file_name(KzFile *file);

#endif
