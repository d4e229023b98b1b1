/* Event tracing: as in the kit where no session listens, each provider is there, and nothing is enabled. */
#include "core/client.h"
#include "core/pool.h"

NTSTATUS EtwRegister(LPCGUID ProviderId, PETWENABLECALLBACK EnableCallback, PVOID CallbackContext, PREGHANDLE RegHandle)
{
    KZ_INSIDE_ALONE();
    kz_uses_bytes(RegHandle, sizeof *RegHandle, KZU_WRITES);
    (void)ProviderId, (void)EnableCallback, (void)CallbackContext;
    *RegHandle = (REGHANDLE)(uintptr_t)kz_owe();
    return STATUS_SUCCESS;
}

NTSTATUS EtwUnregister(REGHANDLE RegHandle)
{
    KZ_INSIDE_ALONE();
    kz_pay((PVOID)(uintptr_t)RegHandle, __func__);
    return STATUS_SUCCESS;
}

/* No session listens. */
BOOLEAN EtwEventEnabled(REGHANDLE RegHandle, PCEVENT_DESCRIPTOR EventDescriptor)
{
    (void)RegHandle, (void)EventDescriptor;
    return FALSE;
}

/* No session listens. */
BOOLEAN EtwProviderEnabled(REGHANDLE RegHandle, UCHAR Level, ULONGLONG Keyword)
{
    (void)RegHandle, (void)Level, (void)Keyword;
    return FALSE;
}

/* Events are written to nobody. */
NTSTATUS EtwWrite(REGHANDLE RegHandle, PCEVENT_DESCRIPTOR EventDescriptor, LPCGUID ActivityId, ULONG UserDataCount, PEVENT_DATA_DESCRIPTOR UserData)
{
    (void)RegHandle, (void)EventDescriptor, (void)ActivityId, (void)UserDataCount, (void)UserData;
    return STATUS_SUCCESS;
}

NTSTATUS EtwWriteTransfer(REGHANDLE RegHandle, PCEVENT_DESCRIPTOR EventDescriptor, LPCGUID ActivityId, LPCGUID RelatedActivityId, ULONG UserDataCount, PEVENT_DATA_DESCRIPTOR UserData)
{
    (void)RelatedActivityId;
    return EtwWrite(RegHandle, EventDescriptor, ActivityId, UserDataCount, UserData);
}

NTSTATUS EtwWriteEx(REGHANDLE RegHandle, PCEVENT_DESCRIPTOR EventDescriptor, ULONG64 Filter, ULONG Flags, LPCGUID ActivityId, LPCGUID RelatedActivityId, ULONG UserDataCount,
                    PEVENT_DATA_DESCRIPTOR UserData)
{
    (void)Filter, (void)Flags;
    return EtwWriteTransfer(RegHandle, EventDescriptor, ActivityId, RelatedActivityId, UserDataCount, UserData);
}

/* Events are written to nobody. */
NTSTATUS EtwWriteString(REGHANDLE RegHandle, UCHAR Level, ULONGLONG Keyword, LPCGUID ActivityId, PCWSTR String)
{
    (void)RegHandle, (void)Level, (void)Keyword, (void)ActivityId, (void)String;
    return STATUS_SUCCESS;
}

/* TraceLogging, as it is compiled, names its provider by it. */
NTSTATUS EtwSetInformation(REGHANDLE RegHandle, EVENT_INFO_CLASS InformationClass, PVOID EventInformation, ULONG InformationLength)
{
    (void)RegHandle, (void)InformationClass, (void)EventInformation, (void)InformationLength;
    return STATUS_SUCCESS;
}

/* ---- What WPP's code calls. Whoever registers isn't asked to trace: so no handle of a session is a right one. */
/* No session of WMI listens. */
NTSTATUS IoWMIRegistrationControl(PDEVICE_OBJECT DeviceObject, ULONG Action)
{
    KZ_INSIDE_ALONE();
    (void)DeviceObject, (void)Action;
    return STATUS_SUCCESS;
}

NTSTATUS WmiQueryTraceInformation(TRACE_INFORMATION_CLASS TraceInformationClass, PVOID TraceInformation, ULONG TraceInformationLength, PULONG RequiredLength, PVOID Buffer)
{
    (void)TraceInformationClass, (void)TraceInformation, (void)TraceInformationLength, (void)RequiredLength, (void)Buffer;
    return STATUS_NOT_FOUND;
}

NTSTATUS WmiTraceMessage(ULONG64 LoggerHandle, ULONG MessageFlags, LPCGUID MessageGuid, USHORT MessageNumber, ...)
{
    (void)LoggerHandle, (void)MessageFlags, (void)MessageGuid, (void)MessageNumber;
    return STATUS_INVALID_HANDLE;
}

NTSTATUS WmiTraceMessageVa(ULONG64 LoggerHandle, ULONG MessageFlags, LPCGUID MessageGuid, USHORT MessageNumber, va_list MessageArgList)
{
    (void)MessageArgList;
    return WmiTraceMessage(LoggerHandle, MessageFlags, MessageGuid, MessageNumber);
}
