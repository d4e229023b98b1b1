/* The kit's calls on a driver's own share access. */
#include "lib/share.h"

NTSTATUS IoCheckShareAccess(ACCESS_MASK DesiredAccess, ULONG DesiredShareAccess, PFILE_OBJECT FileObject, PSHARE_ACCESS ShareAccess, BOOLEAN Update)
{
    kz_grant(FileObject, DesiredAccess, DesiredShareAccess);
    if (!kz_may_share(FileObject, ShareAccess))
        return STATUS_SHARING_VIOLATION;
    if (Update)
        kz_count_share(FileObject, ShareAccess, 1);
    return STATUS_SUCCESS;
}

VOID IoSetShareAccess(ACCESS_MASK DesiredAccess, ULONG DesiredShareAccess, PFILE_OBJECT FileObject, PSHARE_ACCESS ShareAccess)
{
    kz_grant(FileObject, DesiredAccess, DesiredShareAccess);
    *ShareAccess = (SHARE_ACCESS){0};
    kz_count_share(FileObject, ShareAccess, 1);
}

VOID IoUpdateShareAccess(PFILE_OBJECT FileObject, PSHARE_ACCESS ShareAccess)
{
    kz_count_share(FileObject, ShareAccess, 1);
}

VOID IoRemoveShareAccess(PFILE_OBJECT FileObject, PSHARE_ACCESS ShareAccess)
{
    kz_count_share(FileObject, ShareAccess, -1);
}
