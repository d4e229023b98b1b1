/* The annotations of the kit's driver checks: each stands for nothing. */
#ifndef KZ_DRIVERSPECS_H
#define KZ_DRIVERSPECS_H

#include <sal.h>

#define _IRQL_requires_(x)
#define _IRQL_requires_max_(x)
#define _IRQL_requires_min_(x)
#define _IRQL_requires_same_
#define _IRQL_raises_(x)
#define _IRQL_saves_
#define _IRQL_restores_
#define _IRQL_saves_global_(a, b)
#define _IRQL_restores_global_(a, b)
#define _IRQL_always_function_max_(x)
#define _IRQL_always_function_min_(x)
#define _IRQL_inout_
#define _IRQL_uses_cancel_
#define _IRQL_is_cancel_
#define _Dispatch_type_(x)
#define _Kernel_clear_do_init_(x)
#define _Kernel_float_saved_
#define _Kernel_float_restored_
#define _Kernel_IoGetDmaAdapter_
#define _Kernel_requires_resource_held_(x)
#define _Kernel_requires_resource_not_held_(x)
#define _Kernel_acquires_resource_(x)
#define _Kernel_releases_resource_(x)
#define _Kernel_entry_
#define _Kernel_entry_always_
#define _Ret_maybenull_
#define __drv_aliasesMem
#define __drv_allocatesMem(x)
#define __drv_freesMem(x)
#define __drv_strictType(a, b)
#define __drv_strictTypeMatch(x)
#define __drv_functionClass(x)
#define __drv_dispatchType(x)
#define __drv_requiresIRQL(x)
#define __drv_maxIRQL(x)
#define __drv_minIRQL(x)
#define __drv_maxFunctionIRQL(x)
#define __drv_sameIRQL
#define __drv_raisesIRQL(x)
#define __drv_savesIRQL
#define __drv_restoresIRQL
#define __drv_mustHold(x)
#define __drv_neverHold(x)
#define __drv_mustHoldCriticalRegion
#define __drv_acquiresCriticalRegion
#define __drv_releasesCriticalRegion
#define __drv_acquiresExclusiveResource(x)
#define __drv_releasesExclusiveResource(x)
#define __drv_acquiresResource(x)
#define __drv_releasesResource(x)
#define __drv_preferredFunction(a, b)
#define __drv_interlocked
#define __drv_inTry
#define __drv_notInTry
#define __drv_clearDoInit
#define __drv_nonConstant
#define __drv_constant
#define __drv_in(x)
#define __drv_out(x)
#define __drv_inout(x)
#define __drv_arg(a, b)
#define __drv_ret(x)
#define __drv_unit(x)
#define __drv_reportError(x)
#define __drv_useCancelIRQL
#define __drv_isObjectPointer
#define __drv_typeConst
#define __drv_typeBitset
#define __drv_declspec(x)

#endif
