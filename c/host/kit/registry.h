/* The registry: the values of a file that the test names. */
#ifndef KZ_KIT_REGISTRY_H
#define KZ_KIT_REGISTRY_H

#include "host.h"

#define KZ_SERVICES "/REGISTRY/MACHINE/SYSTEM/ControlSet001/Services"

bool kz_read_registry(const char *path);
/* Opens a key or makes it, and the keys that lead to it, as RegCreateKeyEx does. */
NTSTATUS kz_make_key(PHANDLE key, ACCESS_MASK access, POBJECT_ATTRIBUTES attributes, PULONG disposition);
/* The whole name of an open key, with `/`; NULL if it is none. */
const char *kz_key_name(PVOID object);
extern const struct KzModule kz_registry_module;

#endif
