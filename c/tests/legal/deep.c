/* Much of the kernel's stack, and not more than there is: recursion, two functions with large variables one after the other, calls of the kit behind them that come back to the driver. Nothing of it is
 * told. */
#include <fltKernel.h>

static PFLT_FILTER gFilter;
static LONG gSum;

static ULONG Sum(ULONG Left)
{
    volatile UCHAR room[1000];

    room[Left] = (UCHAR)Left;
    return Left == 0 ? 0 : room[Left] + Sum(Left - 1);
}

/* The host's own frames lie behind 16 KB of these. */
static VOID ReadBelow(PFLT_INSTANCE Instance, PFILE_OBJECT FileObject)
{
    UCHAR room[16384];
    LARGE_INTEGER offset = {.QuadPart = 0};
    ULONG read = 0;

    if (NT_SUCCESS(FltReadFile(Instance, FileObject, &offset, sizeof(room), room, FLTFL_IO_OPERATION_DO_NOT_UPDATE_BYTE_OFFSET, &read, NULL, NULL)) && read > 0) {
        DbgPrint("it begins with %02x\n", room[0]);
    }
}

static VOID NameOf(PFLT_CALLBACK_DATA Data)
{
    PFLT_FILE_NAME_INFORMATION name;
    WCHAR copy[8192];

    if (NT_SUCCESS(FltGetFileNameInformation(Data, FLT_FILE_NAME_NORMALIZED | FLT_FILE_NAME_QUERY_DEFAULT, &name))) {
        RtlZeroMemory(copy, sizeof(copy));
        RtlCopyMemory(copy, name->Name.Buffer, min(name->Name.Length, sizeof(copy)));
        InterlockedExchangeAdd(&gSum, copy[1]);
        FltReleaseFileNameInformation(name);
    }
}

/* Large variables in each of two functions, which are never there at once. */
static FLT_PREOP_CALLBACK_STATUS PreFlush(PFLT_CALLBACK_DATA Data, PCFLT_RELATED_OBJECTS FltObjects, PVOID *CompletionContext)
{
    UNREFERENCED_PARAMETER(CompletionContext);
    NameOf(Data);
    ReadBelow(FltObjects->Instance, FltObjects->FileObject);
    InterlockedExchangeAdd(&gSum, (LONG)Sum(20));
    return FLT_PREOP_SUCCESS_NO_CALLBACK;
}

/* Comes from within ReadBelow of another instance too. */
static FLT_PREOP_CALLBACK_STATUS PreRead(PFLT_CALLBACK_DATA Data, PCFLT_RELATED_OBJECTS FltObjects, PVOID *CompletionContext)
{
    UNREFERENCED_PARAMETER(FltObjects);
    UNREFERENCED_PARAMETER(CompletionContext);
    NameOf(Data);
    return FLT_PREOP_SUCCESS_NO_CALLBACK;
}

static NTSTATUS Unload(FLT_FILTER_UNLOAD_FLAGS Flags)
{
    UNREFERENCED_PARAMETER(Flags);
    FltUnregisterFilter(gFilter);
    return STATUS_SUCCESS;
}

static CONST FLT_OPERATION_REGISTRATION Callbacks[] = {{IRP_MJ_FLUSH_BUFFERS, 0, PreFlush}, {IRP_MJ_READ, 0, PreRead}, {IRP_MJ_OPERATION_END}};
static CONST FLT_REGISTRATION Registration = {sizeof(FLT_REGISTRATION), FLT_REGISTRATION_VERSION, 0, NULL, Callbacks, Unload};

NTSTATUS DriverEntry(PDRIVER_OBJECT DriverObject, PUNICODE_STRING RegistryPath)
{
    NTSTATUS status;

    UNREFERENCED_PARAMETER(RegistryPath);
    status = FltRegisterFilter(DriverObject, &Registration, &gFilter);
    if (NT_SUCCESS(status)) {
        status = FltStartFiltering(gFilter);
        if (!NT_SUCCESS(status)) {
            FltUnregisterFilter(gFilter);
        }
    }
    return status;
}
