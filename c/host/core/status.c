/* The manager's statuses as the kit's, both ways. */
#include "core/status.h"

/* By the manager's numbers. Some of the kit's stand for two: kz_number says which of them comes back. */
static const NTSTATUS statuses[KZS_COUNT] = {
    STATUS_SUCCESS,
    STATUS_INSUFFICIENT_RESOURCES,
    STATUS_INVALID_PARAMETER, /* no altitude */
    STATUS_OBJECT_NAME_INVALID,
    STATUS_FLT_INSTANCE_NAME_COLLISION,
    STATUS_FLT_INSTANCE_ALTITUDE_COLLISION,
    STATUS_FLT_FILTER_NOT_FOUND,
    STATUS_FLT_VOLUME_NOT_FOUND,
    STATUS_FLT_INSTANCE_NOT_FOUND,
    STATUS_FLT_FILTER_NOT_FOUND, /* not loaded */
    STATUS_IMAGE_ALREADY_LOADED,
    STATUS_FLT_DO_NOT_ATTACH,
    STATUS_FLT_DO_NOT_DETACH,
    STATUS_FLT_DELETING_OBJECT,
    STATUS_INVALID_HANDLE,
    STATUS_OBJECT_NAME_INVALID, /* no path */
    STATUS_DELETE_PENDING,
    STATUS_ACCESS_DENIED,
    STATUS_IO_DEVICE_ERROR,
    STATUS_OBJECT_NAME_NOT_FOUND,
    STATUS_OBJECT_NAME_COLLISION,
    STATUS_FLT_CONTEXT_ALLOCATION_NOT_FOUND,
    STATUS_FLT_CONTEXT_ALREADY_DEFINED,
    STATUS_FLT_CONTEXT_ALREADY_LINKED,
    STATUS_NOT_FOUND,
    STATUS_KAZDRIN_NOT_HELD,
    STATUS_KAZDRIN_HAND_FULL,
    STATUS_NOT_SUPPORTED,
    STATUS_KAZDRIN_NOT_PENDED,
    STATUS_KAZDRIN_TOO_MANY,
    STATUS_KAZDRIN_WRONG_STEP,
    STATUS_END_OF_FILE,
    STATUS_INVALID_PARAMETER, /* a request without a meaning */
    STATUS_VOLUME_DISMOUNTED,
    STATUS_KAZDRIN_BUSY,
};

NTSTATUS kz_ntstatus(uint32_t number)
{
    return number < KZS_COUNT ? statuses[number] : STATUS_IO_DEVICE_ERROR;
}

/* The number of a status: the last of those that it stands for, but the first if a filter isn't found. One that the manager lacks counts as success, if it is one,
 * or else as a device fault. */
uint32_t kz_number(NTSTATUS status, bool *is_exact)
{
    *is_exact = true;
    if (status == STATUS_FLT_FILTER_NOT_FOUND)
        return KZS_NO_FILTER;
    for (uint32_t number = KZS_COUNT; number-- > 0;)
        if (statuses[number] == status)
            return number;
    *is_exact = false;
    return NT_SUCCESS(status) ? KZS_OK : KZS_DEVICE_FAULT;
}
