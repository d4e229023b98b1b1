/* What the preprocessor of WPP makes of a driver's trace calls, as its documentation and the kit's samples show it: a block of control for each provider, calls that are found by their names or
 * imported, and a test of the level before each message. */
typedef LONG (*PFN_WPPQUERYTRACEINFORMATION)(ULONG Class, PVOID Information, ULONG Length, PULONG Required, PVOID Buffer);
typedef LONG (*PFN_WPPTRACEMESSAGE)(ULONG64 Logger, ULONG Flags, LPCGUID Guid, USHORT Number, ...);
typedef BOOLEAN (*PFN_WPPGETVERSION)(PULONG Major, PULONG Minor, PULONG Build, PUNICODE_STRING Text);
NTKERNELAPI NTSTATUS WmiTraceMessage(ULONG64 Logger, ULONG Flags, LPCGUID Guid, USHORT Number, ...);

typedef struct _WPP_TRACE_CONTROL_BLOCK {
    NTSTATUS (*Callback)(UCHAR Minor, PVOID Context, ULONG Length, PVOID Buffer, PVOID Wpp, PULONG Size);
    LPCGUID ControlGuid;
    struct _WPP_TRACE_CONTROL_BLOCK *Next;
    ULONG64 Logger;
    ULONG FlagsLen;
    UCHAR Level, Reserved[3];
    ULONG Flags[1];
} WPP_TRACE_CONTROL_BLOCK;

static const GUID WPP_ThisDir_CTLGUID = {0x1d5f9c6a, 0x2b7e, 0x4a51, {0x9e, 0x14, 0x3c, 0x70, 0x8d, 0x92, 0x5b, 0x01}};
static const GUID WPP_traced_Traceguids = {0x61d3b7f4, 0x8a90, 0x4c2d, {0xb2, 0x56, 0x0f, 0xe1, 0x43, 0x97, 0xac, 0x28}};
static WPP_TRACE_CONTROL_BLOCK WPP_MAIN_CB[1], *WPP_CB = WPP_MAIN_CB;
static PFN_WPPQUERYTRACEINFORMATION pfnWppQueryTraceInformation;
static PFN_WPPTRACEMESSAGE pfnWppTraceMessage;
static PFN_WPPGETVERSION pfnWppGetVersion;

static NTSTATUS WppTraceCallback(UCHAR Minor, PVOID Context, ULONG Length, PVOID Buffer, PVOID Wpp, PULONG Size)
{
    ULONG64 logger = 0;

    UNREFERENCED_PARAMETER(Context);
    UNREFERENCED_PARAMETER(Length);
    *Size = 0;
    if (Minor == IRP_MN_ENABLE_EVENTS && pfnWppQueryTraceInformation != NULL && NT_SUCCESS(pfnWppQueryTraceInformation(TraceHandleClass, &logger, sizeof(logger), NULL, Buffer))) {
        ((WPP_TRACE_CONTROL_BLOCK *)Wpp)->Logger = logger;
    }
    return STATUS_SUCCESS;
}

static VOID WppLoadTracingSupport(VOID)
{
    UNICODE_STRING name;

    RtlInitUnicodeString(&name, L"PsGetVersion");
    pfnWppGetVersion = (PFN_WPPGETVERSION)MmGetSystemRoutineAddress(&name);
    RtlInitUnicodeString(&name, L"WmiTraceMessage");
    pfnWppTraceMessage = (PFN_WPPTRACEMESSAGE)MmGetSystemRoutineAddress(&name);
    RtlInitUnicodeString(&name, L"WmiQueryTraceInformation");
    pfnWppQueryTraceInformation = (PFN_WPPQUERYTRACEINFORMATION)MmGetSystemRoutineAddress(&name);
    if (pfnWppTraceMessage == NULL) {
        pfnWppTraceMessage = (PFN_WPPTRACEMESSAGE)WmiTraceMessage;
        pfnWppQueryTraceInformation = (PFN_WPPQUERYTRACEINFORMATION)WmiQueryTraceInformation;
    }
}

static VOID WppInitKm(PDEVICE_OBJECT DeviceObject)
{
    UNREFERENCED_PARAMETER(DeviceObject);
    WPP_CB[0].Callback = WppTraceCallback;
    WPP_CB[0].ControlGuid = &WPP_ThisDir_CTLGUID;
    WPP_CB[0].FlagsLen = 1;
    IoWMIRegistrationControl((PDEVICE_OBJECT)&WPP_CB[0], WMIREG_ACTION_REGISTER | 0x80000000);
}

#define WPP_INIT_TRACING(DrvObj, RegPath) (WppLoadTracingSupport(), WppInitKm((PDEVICE_OBJECT)(DrvObj)))
#define WPP_CLEANUP(DrvObj) IoWMIRegistrationControl((PDEVICE_OBJECT)&WPP_CB[0], WMIREG_ACTION_DEREGISTER | 0x80000000)
#define WPP_LEVEL_ENABLED(FLAG) (WPP_CB[0].Flags[(FLAG) / 32] & (1u << (FLAG) % 32))
#define WPP_SF_d(id, guid, a) pfnWppTraceMessage(WPP_CB[0].Logger, 43, (guid), (id), &(a), sizeof(a), NULL)
#define DoTraceMessage(FLAG, TEXT, a) (WPP_LEVEL_ENABLED(FLAG) ? (void)WPP_SF_d(10, &WPP_traced_Traceguids, a) : (void)0)
