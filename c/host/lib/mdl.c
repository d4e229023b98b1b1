/* Memory descriptions: the pages are always there. */
#include "core/access.h"
#include "core/client.h"
#include "core/piece.h"
#include "core/pool.h"
#include "core/told.h"

PMDL IoAllocateMdl(PVOID VirtualAddress, ULONG Length, BOOLEAN SecondaryBuffer, BOOLEAN ChargeQuota, PIRP Irp)
{
    KZ_INSIDE_ALONE();
    (void)SecondaryBuffer, (void)ChargeQuota, (void)Irp;
    PMDL mdl = ExAllocatePoolWithTag(NonPagedPool, sizeof *mdl, 'ldM ');
    if (mdl) {
        MmInitializeMdl(mdl, VirtualAddress, Length);
        mdl->Size = sizeof *mdl;
    }
    return mdl;
}

VOID IoFreeMdl(PMDL Mdl)
{
    KZ_INSIDE_ALONE();
    kz_uses_bytes(Mdl, sizeof *Mdl, KZU_WRITES);
    const KzPiece *piece = kz_piece_of(Mdl);
    if (kz_depth == 0 && piece && !piece->filter) {
        kz_tell(KZM_NO_POOL, __func__, "an MDL that the filter manager made for the operation: it frees it");
        return;
    }
    if (kz_depth == 0 && piece && Mdl->MdlFlags & MDL_PAGES_LOCKED) {
        kz_tell(KZM_LOCKED_PAGES, "MmUnlockPages", "never called for an MDL that is freed");
        MmUnlockPages(Mdl);
    }
    kz_free_pool(Mdl, __func__);
}

VOID IoBuildPartialMdl(PMDL SourceMdl, PMDL TargetMdl, PVOID VirtualAddress, ULONG Length)
{
    KZ_INSIDE_ALONE();
    kz_uses_bytes(SourceMdl, sizeof *SourceMdl, KZU_READS);
    kz_uses_bytes(TargetMdl, sizeof *TargetMdl, KZU_WRITES);
    ULONG skipped = (ULONG)((PUCHAR)VirtualAddress - (PUCHAR)MmGetMdlVirtualAddress(SourceMdl));
    MmInitializeMdl(TargetMdl, VirtualAddress, Length ? Length : SourceMdl->ByteCount - skipped);
    TargetMdl->Size = sizeof *TargetMdl;
    TargetMdl->MdlFlags |= MDL_PARTIAL;
}

VOID MmBuildMdlForNonPagedPool(PMDL MemoryDescriptorList)
{
    KZ_INSIDE_ALONE();
    kz_uses_bytes(MemoryDescriptorList, sizeof *MemoryDescriptorList, KZU_WRITES);
    if (kz_depth == 0 && kz_is_paged(MmGetMdlVirtualAddress(MemoryDescriptorList)))
        kz_tell(KZM_LOCKED_PAGES, __func__, "for memory that can be paged out: MmProbeAndLockPages has its pages stay");
    MemoryDescriptorList->MdlFlags |= MDL_SOURCE_IS_NONPAGED_POOL;
    MemoryDescriptorList->MappedSystemVa = MmGetMdlVirtualAddress(MemoryDescriptorList);
}

VOID MmProbeAndLockPages(PMDL MemoryDescriptorList, KPROCESSOR_MODE AccessMode, LOCK_OPERATION Operation)
{
    if (AccessMode == UserMode)
        kz_must_be_in_try("MmProbeAndLockPages", KZ_CALLER(), "the program has freed that memory");
    KZ_INSIDE_ALONE();
    kz_uses_bytes(MemoryDescriptorList, sizeof *MemoryDescriptorList, KZU_WRITES);
    kz_uses_object(MmGetMdlVirtualAddress(MemoryDescriptorList), KZU_WRITES);
    (void)Operation;
    if (kz_depth == 0 && MemoryDescriptorList->MdlFlags & (MDL_PAGES_LOCKED | MDL_SOURCE_IS_NONPAGED_POOL))
        kz_tell(KZM_LOCKED_PAGES, __func__, "for an MDL whose pages stay already");
    MemoryDescriptorList->MdlFlags |= MDL_PAGES_LOCKED;
    kz_map_pages(MmGetMdlVirtualAddress(MemoryDescriptorList), true);
}

VOID MmUnlockPages(PMDL MemoryDescriptorList)
{
    KZ_INSIDE_ALONE();
    kz_uses_bytes(MemoryDescriptorList, sizeof *MemoryDescriptorList, KZU_WRITES);
    kz_uses_object(MmGetMdlVirtualAddress(MemoryDescriptorList), KZU_WRITES);
    if (kz_depth == 0 && !(MemoryDescriptorList->MdlFlags & MDL_PAGES_LOCKED))
        kz_tell(KZM_LOCKED_PAGES, __func__, "for an MDL whose pages aren't locked");
    MemoryDescriptorList->MdlFlags &= ~MDL_PAGES_LOCKED;
    kz_map_pages(MmGetMdlVirtualAddress(MemoryDescriptorList), false);
}

PVOID MmMapLockedPagesSpecifyCache(PMDL MemoryDescriptorList, KPROCESSOR_MODE AccessMode, MEMORY_CACHING_TYPE CacheType, PVOID RequestedAddress,
                                   ULONG BugCheckOnFailure, ULONG Priority)
{
    KZ_INSIDE_ALONE();
    kz_uses_bytes(MemoryDescriptorList, sizeof *MemoryDescriptorList, KZU_READS);
    (void)AccessMode, (void)CacheType, (void)RequestedAddress, (void)BugCheckOnFailure, (void)Priority;
    return MmGetMdlVirtualAddress(MemoryDescriptorList);
}

/* Pages have one address, which stays. */
VOID MmUnmapLockedPages(PVOID BaseAddress, PMDL MemoryDescriptorList)
{
    (void)BaseAddress, (void)MemoryDescriptorList;
}
