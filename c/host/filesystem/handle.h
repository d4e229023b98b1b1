/* Handles that drivers have of files and of other objects. */
#ifndef KZ_FILESYSTEM_HANDLE_H
#define KZ_FILESYSTEM_HANDLE_H

#include "host.h"

/* Handles of a driver's own files, and of what else it opens. */
KzFile *kz_own_file(HANDLE handle);
/* The same for a call that begins an operation of it; where there is none, that is told. */
KzFile *kz_asked_file(HANDLE handle, const char *call);
HANDLE kz_open_handle(PVOID object, const char *what, ULONG attributes);
/* With the call that is to close it. */
HANDLE kz_file_handle(KzFile *file, const char *closed_by);
/* It is none any more. Its file; NULL if it is of none. False: there is no such handle. */
bool kz_drop_handle(HANDLE handle, KzFile **file);
/* The next one that a program has; NULL if it has none. */
HANDLE kz_handle_of_process(uint64_t process);
PVOID kz_object_of(HANDLE handle);
bool kz_has_handle(const void *object);
extern const struct KzModule kz_handle_module;

#endif
