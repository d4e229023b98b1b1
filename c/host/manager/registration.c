/* Which contexts a filter registers. */
#include "manager/registration.h"

#include "core/told.h"

uint8_t kz_context_kind(FLT_CONTEXT_TYPE type)
{
    switch (type) {
    case FLT_VOLUME_CONTEXT:
        return 0;
    case FLT_INSTANCE_CONTEXT:
        return 1;
    case FLT_STREAM_CONTEXT:
        return 2;
    case FLT_STREAMHANDLE_CONTEXT:
        return 3;
    case FLT_SECTION_CONTEXT:
        return KZ_OF_SECTION;
    case FLT_FILE_CONTEXT:
        return KZ_OF_FILE;
    case FLT_TRANSACTION_CONTEXT:
        return KZ_OF_TRANSACTION;
    default:
        return KZ_OF_NOTHING;
    }
}

static bool is_twice(const FLT_CONTEXT_REGISTRATION *first, const FLT_CONTEXT_REGISTRATION *one)
{
    for (const FLT_CONTEXT_REGISTRATION *other = first; other < one; other++)
        if (other->ContextType == one->ContextType && other->Size == one->Size)
            return true;
    return false;
}

NTSTATUS kz_registration_of_contexts(PFLT_FILTER filter, uint8_t *mask)
{
    const FLT_CONTEXT_REGISTRATION *first = filter->registration.ContextRegistration, *one = first;
    *mask = 0;
    for (; one && one->ContextType != FLT_CONTEXT_END; one++) {
        uint8_t kind = kz_context_kind(one->ContextType);
        if (kind == KZ_OF_NOTHING) {
            kz_tell(KZM_NO_END, "FltRegisterFilter", "context type 0x%04x is none (is FLT_CONTEXT_END missing?)", one->ContextType);
            return STATUS_FLT_INVALID_CONTEXT_REGISTRATION;
        }
        if (is_twice(first, one)) {
            kz_tell(KZM_TWO_CONTEXTS, "FltRegisterFilter", "context type 0x%04x is registered twice with one size", one->ContextType);
            return STATUS_FLT_INVALID_CONTEXT_REGISTRATION;
        }
        if (kind < 4)
            *mask |= (uint8_t)(1 << kind);
    }
    return STATUS_SUCCESS;
}

const FLT_CONTEXT_REGISTRATION *kz_registered_context(PFLT_FILTER filter, FLT_CONTEXT_TYPE type, SIZE_T size)
{
    const FLT_CONTEXT_REGISTRATION *one = filter->registration.ContextRegistration;
    for (; one && one->ContextType != FLT_CONTEXT_END; one++)
        if (one->ContextType == type && (one->Size == size || one->Size == FLT_VARIABLE_SIZED_CONTEXTS ||
                                         (one->Flags & FLTFL_CONTEXT_REGISTRATION_NO_EXACT_SIZE_MATCH && size <= one->Size)))
            return one;
    return NULL;
}
