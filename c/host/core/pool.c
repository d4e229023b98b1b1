/* Pools: memory that drivers take. As in the kit, it isn't zeroed. */
#include "core/pool.h"

#include "core/access.h"
#include "core/client.h"
#include "core/irql.h"
#include "core/piece.h"
#include "core/raise.h"
#include "core/told.h"
#include "core/unwritten.h"

/* Paged memory isn't for DISPATCH_LEVEL. */
static PVOID take_pool(const char *call, bool is_paged, SIZE_T size, int fill, ULONG tag)
{
    if (is_paged)
        kz_may_be_called(call, APC_LEVEL);
    if (!size)
        kz_tell(KZM_NO_BYTES, call, "called for 0 bytes");
    PVOID made = kz_refuses(KZ_CHOICE_POOL, call) ? NULL : kz_take_memory(KZK_POOL, size, fill, tag);
    if (is_paged)
        kz_own(made, KZ_PAGED, 0);
    return made;
}

/* A caller that asks for it gets an exception in place of NULL. */
static PVOID or_raise(PVOID made, bool raises, const char *call, const void *from)
{
    if (raises)
        kz_must_be_in_try(call, from, "there is no memory");
    if (!made && raises)
        kz_raise_for(call, STATUS_INSUFFICIENT_RESOURCES, from);
    return made;
}

static PVOID take_plain(const char *call, const void *from, POOL_TYPE type, SIZE_T size, int fill, ULONG tag)
{
    KZ_INSIDE_FROM(call, from);
    kz_uses_own();
    return take_pool(call, type & PagedPool, size, fill, tag);
}

PVOID ExAllocatePoolWithTag(POOL_TYPE PoolType, SIZE_T NumberOfBytes, ULONG Tag)
{
    PVOID made = take_plain(__func__, KZ_CALLER(), PoolType, NumberOfBytes, kz_unwritten(0xcd), Tag);
    return or_raise(made, PoolType & POOL_RAISE_IF_ALLOCATION_FAILURE, __func__, KZ_CALLER());
}

PVOID ExAllocatePool(POOL_TYPE PoolType, SIZE_T NumberOfBytes)
{
    PVOID made = take_plain(__func__, KZ_CALLER(), PoolType, NumberOfBytes, kz_unwritten(0xcd), 'enoN');
    return or_raise(made, PoolType & POOL_RAISE_IF_ALLOCATION_FAILURE, __func__, KZ_CALLER());
}

PVOID ExAllocatePoolWithQuotaTag(POOL_TYPE PoolType, SIZE_T NumberOfBytes, ULONG Tag)
{
    PVOID made = take_plain(__func__, KZ_CALLER(), PoolType, NumberOfBytes, kz_unwritten(0xcd), Tag);
    return or_raise(made, !(PoolType & POOL_QUOTA_FAIL_INSTEAD_OF_RAISE), __func__, KZ_CALLER());
}

PVOID ExAllocatePoolUninitialized(POOL_TYPE PoolType, SIZE_T NumberOfBytes, ULONG Tag)
{
    PVOID made = take_plain(__func__, KZ_CALLER(), PoolType, NumberOfBytes, kz_unwritten(0xcd), Tag);
    return or_raise(made, PoolType & POOL_RAISE_IF_ALLOCATION_FAILURE, __func__, KZ_CALLER());
}

PVOID ExAllocatePoolZero(POOL_TYPE PoolType, SIZE_T NumberOfBytes, ULONG Tag)
{
    PVOID made = take_plain(__func__, KZ_CALLER(), PoolType, NumberOfBytes, 0, Tag);
    return or_raise(made, PoolType & POOL_RAISE_IF_ALLOCATION_FAILURE, __func__, KZ_CALLER());
}

PVOID ExAllocatePool2(POOL_FLAGS Flags, SIZE_T NumberOfBytes, ULONG Tag)
{
    POOL_TYPE type = Flags & POOL_FLAG_PAGED ? PagedPool : NonPagedPool;
    PVOID made = take_plain(__func__, KZ_CALLER(), type, NumberOfBytes, Flags & POOL_FLAG_UNINITIALIZED ? kz_unwritten(0xcd) : 0, Tag);
    return or_raise(made, Flags & POOL_FLAG_RAISE_ON_FAILURE, __func__, KZ_CALLER());
}

/* Only what a file object's name lies in may be freed by a driver as well. */
static bool is_file_name(const void *memory)
{
    for (const KzFile *file = kz.files; file; file = file->next)
        if (file->object.FileName.Buffer == memory)
            return true;
    return false;
}

/* Whether that is memory of a pool, as the name of a file object is too. */
static KzPiece *pool_of(PVOID memory, const char *call)
{
    KzPiece *piece = kz_piece_of(memory);
    if (piece && (piece->kind == KZK_POOL || (piece->kind == KZK_NAME && is_file_name(memory))))
        return piece;
    kz_tell(KZM_NO_POOL, call, piece && piece->kind == KZK_CONTEXT ? "a context, which isn't a pool's memory" : "memory that isn't a pool's (freed twice?)");
    return NULL;
}

void kz_free_pool(PVOID memory, const char *call)
{
    KZ_INSIDE_ALONE();
    KzPiece *piece = pool_of(memory, call);
    if (piece && piece->owner == KZ_PAGED)
        kz_may_be_called(call, APC_LEVEL);
    if (piece)
        kz_give_back(memory);
}

PVOID kz_owe(void)
{
    return kz_take_memory(KZK_POOL, sizeof(PVOID), 0, 'dewO');
}

void kz_pay(PVOID mark, const char *call)
{
    KZ_INSIDE_ALONE();
    const KzPiece *piece = kz_piece_of(mark);
    const char *unmaker = piece && piece->kind == KZK_POOL ? kz_unmaker_of(piece) : NULL;
    if (unmaker && strcmp(unmaker, call) == 0)
        kz_give_back(mark);
    else
        kz_tell(KZM_OBJECT_RELEASED, call, "what isn't there (twice?)");
}

/* Some calls of the kit make what another one alone may free. A binary has its lists' code in itself. */
static void check_family(const KzPiece *piece, const char *call)
{
    const char *unmaker = kz_unmaker_of(piece);
    if (unmaker)
        kz_tell(KZM_NO_POOL, call, "what %s made: %s frees it", piece->place.call, unmaker);
    else if (piece->lookaside && !kz_is_binary(kz_me->place.from))
        kz_tell(KZM_NO_LOOKASIDE, call, "an entry of a lookaside list, which goes back to its list");
}

PVOID FltAllocatePoolAlignedWithTag(PFLT_INSTANCE Instance, POOL_TYPE PoolType, SIZE_T NumberOfBytes, ULONG Tag)
{
    (void)Instance;
    return take_plain(__func__, KZ_CALLER(), PoolType, NumberOfBytes, kz_unwritten(0xcd), Tag);
}

VOID FltFreePoolAlignedWithTag(PFLT_INSTANCE Instance, PVOID Buffer, ULONG Tag)
{
    KZ_INSIDE_ALONE();
    (void)Instance, (void)Tag;
    KzPiece *piece = pool_of(Buffer, __func__);
    if (!piece)
        return;
    if (!kz_unmaker_of(piece) || strcmp(kz_unmaker_of(piece), __func__) != 0)
        kz_tell(KZM_NO_POOL, __func__, "memory that FltAllocatePoolAlignedWithTag didn't make");
    kz_give_back(Buffer);
}

VOID ExFreePoolWithTag(PVOID P, ULONG Tag)
{
    KZ_INSIDE_ALONE();
    KzPiece *piece = pool_of(P, __func__);
    char own[8], given[8];
    if (!piece)
        return;
    if (kz_depth == 0)
        check_family(piece, __func__);
    if (piece->owner == KZ_PAGED)
        kz_may_be_called(__func__, APC_LEVEL);
    if (Tag && piece->kind == KZK_POOL && (Tag & ~PROTECTED_POOL) != (piece->tag & ~PROTECTED_POOL))
        kz_tell(KZM_WRONG_TAG, __func__, "a pool's memory with the tag '%s', which was taken with '%s'", kz_tag(Tag, given), kz_tag(piece->tag, own));
    kz_give_back(P);
}

VOID ExFreePool(PVOID P)
{
    KZ_INSIDE_ALONE();
    const KzPiece *piece = kz_depth == 0 ? kz_piece_of(P) : NULL;
    if (piece && piece->kind == KZK_POOL)
        check_family(piece, __func__);
    kz_free_pool(P, __func__);
}

VOID ExFreePool2(PVOID P, ULONG Tag, PVOID ExtendedParameters, ULONG ExtendedParametersCount)
{
    KZ_INSIDE_ALONE();
    (void)ExtendedParameters, (void)ExtendedParametersCount;
    ExFreePoolWithTag(P, Tag);
}
