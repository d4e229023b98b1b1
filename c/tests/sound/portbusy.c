/* An unload waits for a message callback of a connection. Once that has returned the program closes the connection by itself, and the unload waits again. Only an unload that goes on in between ends
 * the connection: its disconnect callback runs then in no process of the program's, which this driver takes for granted. */
#include <fltKernel.h>

static PFLT_FILTER gFilter;
static PFLT_PORT gServerPort, gClientPort;
static PEPROCESS gProgram;
static volatile LONG gIsEnding;

static NTSTATUS Connect(PFLT_PORT ClientPort, PVOID ServerPortCookie, PVOID ConnectionContext, ULONG SizeOfContext, PVOID *ConnectionPortCookie)
{
    UNREFERENCED_PARAMETER(ServerPortCookie);
    UNREFERENCED_PARAMETER(ConnectionContext);
    UNREFERENCED_PARAMETER(SizeOfContext);
    *ConnectionPortCookie = NULL;
    gProgram = PsGetCurrentProcess();
    gClientPort = ClientPort;
    return STATUS_SUCCESS;
}

static VOID Disconnect(PVOID ConnectionCookie)
{
    UNREFERENCED_PARAMETER(ConnectionCookie);
    FLT_ASSERT(!gIsEnding || PsGetCurrentProcess() == gProgram);
    FltCloseClientPort(gFilter, &gClientPort);
}

static NTSTATUS Message(PVOID PortCookie, PVOID InputBuffer, ULONG InputBufferLength, PVOID OutputBuffer, ULONG OutputBufferLength, PULONG ReturnOutputBufferLength)
{
    ULONG number = 0;
    LARGE_INTEGER none = {.QuadPart = 0};

    UNREFERENCED_PARAMETER(PortCookie);
    UNREFERENCED_PARAMETER(InputBuffer);
    UNREFERENCED_PARAMETER(InputBufferLength);
    UNREFERENCED_PARAMETER(OutputBuffer);
    UNREFERENCED_PARAMETER(OutputBufferLength);
    gIsEnding = FltSendMessage(gFilter, &gClientPort, &number, sizeof(number), NULL, NULL, &none) == STATUS_PORT_DISCONNECTED;
    *ReturnOutputBufferLength = 0;
    return STATUS_SUCCESS;
}

static NTSTATUS Unload(FLT_FILTER_UNLOAD_FLAGS Flags)
{
    UNREFERENCED_PARAMETER(Flags);
    FltCloseCommunicationPort(gServerPort);
    FltUnregisterFilter(gFilter);
    return STATUS_SUCCESS;
}

static NTSTATUS OpenPort(VOID)
{
    static UNICODE_STRING name = RTL_CONSTANT_STRING(L"\\DrawnPort");
    PSECURITY_DESCRIPTOR descriptor;
    OBJECT_ATTRIBUTES attributes;
    NTSTATUS status = FltBuildDefaultSecurityDescriptor(&descriptor, FLT_PORT_ALL_ACCESS);

    if (NT_SUCCESS(status)) {
        InitializeObjectAttributes(&attributes, &name, OBJ_KERNEL_HANDLE | OBJ_CASE_INSENSITIVE, NULL, descriptor);
        status = FltCreateCommunicationPort(gFilter, &gServerPort, &attributes, NULL, Connect, Disconnect, Message, 1);
        FltFreeSecurityDescriptor(descriptor);
    }
    return status;
}

NTSTATUS DriverEntry(PDRIVER_OBJECT DriverObject, PUNICODE_STRING RegistryPath)
{
    static const FLT_REGISTRATION registration = {.Size = sizeof(FLT_REGISTRATION), .Version = FLT_REGISTRATION_VERSION, .FilterUnloadCallback = Unload};
    NTSTATUS status = FltRegisterFilter(DriverObject, &registration, &gFilter);

    UNREFERENCED_PARAMETER(RegistryPath);
    if (NT_SUCCESS(status)) {
        status = OpenPort();
    }
    if (NT_SUCCESS(status)) {
        status = FltStartFiltering(gFilter);
    }
    return status;
}
