/* Routines that aren't modelled, by the tables of c/include: each tells its LIMIT with its name, and answers what stands there. Arguments aren't looked at. */
#include "core/client.h"
#include "core/told.h"

#include <bcrypt.h>

#pragma GCC diagnostic ignored "-Wunused-parameter"

/* Beside its LIMIT: it waits in the kit, or ends a wait, so what follows comes in another order there. */
enum { WAITS = 1 << 16 };

static void tell(unsigned said, const char *call, const char *answer)
{
    KzMessage message = said & ~(unsigned)WAITS;
    if (said & WAITS && kz_has_others())
        kz_tell(KZM_UNKNOWN_WAIT, call, "isn't modelled, and others may go on while it waits: what comes after it can't be judged");
    if (*answer)
        kz_tell(message, call, "isn't modelled: it answers %s", answer);
    else
        kz_tell(message, call, "isn't modelled: it does nothing");
}

#define KZ_ROUTINE(type, answer, message, name, ...) \
    type name(__VA_ARGS__)                           \
    {                                                \
        KZ_INSIDE();                                 \
        tell((unsigned)(KZM_##message), #name, #answer); \
        return answer;                               \
    }

#include <kzroutines.h>

#include <kzfltroutines.h>

#include <kzbcryptroutines.h>
