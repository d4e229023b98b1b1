/* Devices of a driver's own, as programs open them. */
#ifndef KZ_KIT_DEVICE_H
#define KZ_KIT_DEVICE_H

#include "host.h"

typedef struct KzDevice KzDevice;

/* What is open by one handle of a program. */
typedef struct {
    KzDevice *device;
    PFILE_OBJECT object;
} KzDeviceFile;

/* One call: an IRP. What is asked for and what is answered may lie in the same room. */
typedef struct {
    UCHAR major;
    ULONG code; /* of a device control */
    void *in, *out;
    ULONG in_length, out_length;
    uint64_t offset;
} KzDeviceAsk;

extern const struct KzModule kz_device_module;
/* By a name with `/`: of a symbolic link behind `//./`, or of the device behind `//?/GLOBALROOT`. */
NTSTATUS kz_open_device(const char *name, KzDeviceFile *made);
NTSTATUS kz_ask_device(KzDeviceFile *file, const KzDeviceAsk *asked, ULONG_PTR *information);
void kz_close_device(KzDeviceFile *file);
/* The name of a driver's own device; NULL if it is none, or has none. */
const char *kz_device_name(const void *object);

#endif
