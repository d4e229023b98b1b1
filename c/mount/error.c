/* The table of statuses: docs/MOUNT.md has it too. */
#include "error.h"

#include "wire/status.h"

#include <errno.h>

static const int errors[] = {
    [0] = 0,           [1] = ENOMEM,  [2] = EINVAL,     [3] = EINVAL,  [4] = EEXIST,  [5] = EEXIST,  [6] = ENXIO,  [7] = ENODEV,  [8] = ENXIO,
    [9] = ENXIO,       [10] = EALREADY, [11] = EPERM,   [12] = EPERM,  [13] = ESHUTDOWN, [14] = EBADF, [15] = EINVAL, [16] = EBUSY,  [17] = EACCES,
    [18] = EIO,        [19] = ENOENT, [20] = EEXIST,    [21] = EOPNOTSUPP, [22] = EEXIST, [23] = EEXIST, [24] = ENOENT, [25] = EINVAL, [26] = ENOBUFS,
    [27] = ENOENT,     [28] = EINVAL, [29] = ENFILE,    [30] = EPROTO, [31] = EIO,    [32] = EINVAL, [33] = ENODEV, [34] = EBUSY,
};

int errno_of(uint8_t status)
{
    return status < sizeof errors / sizeof errors[0] ? errors[status] : EPROTO;
}

int errno_of_look(uint8_t status)
{
    return status == KZS_BAD_PATH || status == KZS_DELETE_PENDING ? ENOENT : errno_of(status);
}
