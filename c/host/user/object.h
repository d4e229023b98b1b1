/* Handles of a program: each is an object of its process. */
#ifndef KZ_USER_OBJECT_H
#define KZ_USER_OBJECT_H

#include "host.h"
#include "user/program.h"

KzObject *kz_new_object(KzObjectKind kind);
KzObject *kz_object(const void *handle, KzObjectKind kind); /* NULL, and the error is set */
KzObject *kz_any_object(const void *handle);
/* The same one, unless its handle was closed meanwhile. */
KzObject *kz_open_object(const KzObject *object);
void kz_close_object(KzObject *object);
int kz_failed(uint32_t error); /* sets the error; 0 */

#endif
