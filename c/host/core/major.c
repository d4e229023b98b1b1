/* Major functions: their names, and those of the manager's own operations. */
#include "core/major.h"

#include "core/op.h"

PCHAR FltGetIrpName(UCHAR IrpMajorCode)
{
    static const char *const names[] = {"IRP_MJ_CREATE", "IRP_MJ_CREATE_NAMED_PIPE", "IRP_MJ_CLOSE", "IRP_MJ_READ", "IRP_MJ_WRITE",
                                        "IRP_MJ_QUERY_INFORMATION", "IRP_MJ_SET_INFORMATION", "IRP_MJ_QUERY_EA", "IRP_MJ_SET_EA", "IRP_MJ_FLUSH_BUFFERS",
                                        "IRP_MJ_QUERY_VOLUME_INFORMATION", "IRP_MJ_SET_VOLUME_INFORMATION", "IRP_MJ_DIRECTORY_CONTROL",
                                        "IRP_MJ_FILE_SYSTEM_CONTROL", "IRP_MJ_DEVICE_CONTROL", "IRP_MJ_INTERNAL_DEVICE_CONTROL", "IRP_MJ_SHUTDOWN",
                                        "IRP_MJ_LOCK_CONTROL", "IRP_MJ_CLEANUP", "IRP_MJ_CREATE_MAILSLOT", "IRP_MJ_QUERY_SECURITY", "IRP_MJ_SET_SECURITY",
                                        "IRP_MJ_POWER", "IRP_MJ_SYSTEM_CONTROL", "IRP_MJ_DEVICE_CHANGE", "IRP_MJ_QUERY_QUOTA", "IRP_MJ_SET_QUOTA", "IRP_MJ_PNP"};
    static const char *const above[] = {"IRP_MJ_ACQUIRE_FOR_SECTION_SYNCHRONIZATION", "IRP_MJ_RELEASE_FOR_SECTION_SYNCHRONIZATION", "IRP_MJ_ACQUIRE_FOR_MOD_WRITE", "IRP_MJ_RELEASE_FOR_MOD_WRITE",
                                        "IRP_MJ_ACQUIRE_FOR_CC_FLUSH", "IRP_MJ_RELEASE_FOR_CC_FLUSH", "IRP_MJ_QUERY_OPEN"};
    UCHAR down = (UCHAR)(0xff - IrpMajorCode);
    if (IrpMajorCode == IRP_MJ_NETWORK_QUERY_OPEN)
        return (PCHAR) "IRP_MJ_NETWORK_QUERY_OPEN";
    if (down < sizeof above / sizeof above[0])
        return (PCHAR)above[down];
    return (PCHAR)(IrpMajorCode < sizeof names / sizeof names[0] ? names[IrpMajorCode] : "IRP_MJ_OTHER");
}

/* ---- Operations by the kit's major functions. */
static UCHAR major_of_event(uint8_t event)
{
    switch (event) {
    case KZE_CREATE:
        return IRP_MJ_CREATE;
    case KZE_LIST:
        return IRP_MJ_DIRECTORY_CONTROL;
    case KZE_READ:
        return IRP_MJ_READ;
    case KZE_WRITE:
        return IRP_MJ_WRITE;
    case KZE_QUERY_SIZE:
        return IRP_MJ_QUERY_INFORMATION;
    case KZE_SET_SIZE:
    case KZE_SET_DELETE:
    case KZE_RESTORE:
        return IRP_MJ_SET_INFORMATION;
    case KZE_FLUSH:
        return IRP_MJ_FLUSH_BUFFERS;
    case KZE_CLEANUP:
        return IRP_MJ_CLEANUP;
    default:
        return IRP_MJ_CLOSE;
    }
}

UCHAR kz_major_of(const KzOp *op)
{
    return op->opaque ? op->opaque->major : major_of_event(op->event);
}
