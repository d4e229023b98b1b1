/* Names that are used anew soon after they went: the new file has the time of the old one's creation, as the kit's file systems tunnel it. */
#ifndef KZ_FILESYSTEM_TUNNEL_H
#define KZ_FILESYSTEM_TUNNEL_H

#include "host.h"
#include "filesystem/tree.h"

extern const struct KzModule kz_tunnel_module;
/* A name that is used anew within 15 seconds has the time of the old file's creation. */
void kz_put_in_tunnel(const KzName *name);
void kz_take_from_tunnel(KzName *name);

#endif
