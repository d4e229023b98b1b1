/* Volumes: how they come and go, and the properties that a test gives them. */
#ifndef KZ_MANAGER_MOUNT_H
#define KZ_MANAGER_MOUNT_H

#include "host.h"

/* A file system by the word of a test, with the names of its driver and its device. */
typedef struct {
    const char *word;
    FLT_FILESYSTEM_TYPE type;
    const char *driver, *device;
    DEVICE_TYPE kind;
} KzFileSystem;

const KzFileSystem *kz_system_of(FLT_FILESYSTEM_TYPE type);
bool kz_set_volume(PFLT_VOLUME volume, const char *word);
void kz_new_volume(PFLT_VOLUME volume);
bool kz_may_use_volume(const char *call, PFLT_VOLUME volume);
uint32_t kz_mount(const char *name, uint64_t *number);
uint32_t kz_dismount(PFLT_VOLUME volume);

#endif
