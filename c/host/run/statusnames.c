/* The kit's statuses by their names: those of ntstatus.h, as the Makefile lists them. */
#include "run/statusnames.h"

#include "core/near.h"

static const struct {
    const char *name;
    uint32_t status;
} names[] = {
#include "statuses.inc"
};

const char *kz_status_name(uint32_t status)
{
    for (size_t at = 0; at < sizeof names / sizeof names[0]; at++)
        if (names[at].status == status)
            return names[at].name;
    return NULL;
}

int64_t kz_status_named(const char *name)
{
    for (size_t at = 0; at < sizeof names / sizeof names[0]; at++)
        if (strcmp(names[at].name, name) == 0)
            return names[at].status;
    return -1;
}

const char *kz_nearest_status(const char *word)
{
    char whole[80];
    snprintf(whole, sizeof whole, "%s%.60s", strncmp(word, "STATUS_", 7) == 0 ? "" : "STATUS_", word);
    KzNear near = kz_near(whole);
    for (size_t at = 0; at < sizeof names / sizeof names[0]; at++)
        kz_try_near(&near, names[at].name);
    return near.best;
}
