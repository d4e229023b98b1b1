/* Names that are used anew soon after they went: the new file has the time of the old one's creation, as the kit's file systems tunnel it. */
#include "filesystem/tunnel.h"

#include "core/clock.h"
#include "core/module.h"
#include "filesystem/name.h"
#include "filesystem/tree.h"

#define SECONDS 10000000LL

enum { KEPT = 16 };

typedef struct {
    PFLT_VOLUME volume; /* NULL if the place is free */
    char text[KZ_PATH];
    LONGLONG created, when;
} Tunneled;

struct KzTunnelState {
    Tunneled kept[KEPT];
    unsigned next;
};

void kz_put_in_tunnel(const KzName *name)
{
    Tunneled *one = &kz.tunnel->kept[kz.tunnel->next++ % KEPT];
    one->volume = name->volume;
    strcpy(one->text, name->text);
    one->created = name->file->created;
    one->when = kz_time();
}

void kz_take_from_tunnel(KzName *name)
{
    for (Tunneled *one = kz.tunnel->kept; one < kz.tunnel->kept + KEPT; one++)
        if (one->volume == name->volume && kz_is_same_name(name->volume, one->text, name->text, sizeof one->text)) {
            if (kz_time() - one->when <= 15 * SECONDS)
                name->file->created = one->created;
            one->volume = NULL;
        }
}

const KzModule kz_tunnel_module = {KZ_STATE(tunnel)};
