/* What a driver asks by itself of a file, a directory or a volume, where the manager has no operation for it: those below it hear of it as of a client's. */
#include "kit/control.h"

#include "core/client.h"
#include "core/op.h"
#include "core/told.h"
#include "lib/letters.h"
#include "filesystem/handle.h"
#include "manager/below.h"
#include "manager/instance.h"
#include "kit/io.h"
#include "oplock/oplock.h"
#include "kit/key.h"

static KzFile *opened(PFLT_INSTANCE instance, PFILE_OBJECT object, const char *call)
{
    return kz_may_use(call, instance) ? kz_opened_file(object, call) : NULL;
}

static NTSTATUS ask(PFLT_INSTANCE instance, PFILE_OBJECT object, const KzAsked *asked, PVOID to, PULONG returned, const char *call)
{
    uint64_t information = 0;
    KzFile *file = opened(instance, object, call);
    NTSTATUS status = file ? kz_ask_below(instance, file, asked, to, &information) : STATUS_INVALID_PARAMETER;
    if (returned)
        *returned = (ULONG)information;
    return status;
}

/* By a handle, from the top of the stack. */
static NTSTATUS ask_by_handle(HANDLE handle, PIO_STATUS_BLOCK to, const KzAsked *asked, PVOID buffer, const char *call)
{
    ULONG returned = 0;
    KzFile *file = kz_asked_file(handle, call);
    if (!file)
        return STATUS_INVALID_HANDLE;
    NTSTATUS status = ask(NULL, &file->object, asked, buffer, &returned, call);
    return kz_put_status(to, status, returned);
}

/* ---- Directories. */
typedef struct {
    char text[KZ_PATH];
    KzAsked asked;
} Listing;

static const KzAsked *listing(Listing *one, ULONG room, FILE_INFORMATION_CLASS class, BOOLEAN is_single, PUNICODE_STRING pattern, BOOLEAN is_restart)
{
    UCHAR flags = (UCHAR)((is_single ? SL_RETURN_SINGLE_ENTRY : 0) | (is_restart ? SL_RESTART_SCAN : 0));
    one->asked = (KzAsked){.major = IRP_MJ_DIRECTORY_CONTROL, .minor = IRP_MN_QUERY_DIRECTORY, .flags = flags, .code = (ULONG)class, .room = room};
    if (pattern && pattern->Length) {
        kz_narrow(one->text, sizeof one->text, pattern);
        one->asked.pattern = one->text;
    }
    return &one->asked;
}

NTSTATUS FltQueryDirectoryFile(PFLT_INSTANCE Instance, PFILE_OBJECT FileObject, PVOID FileInformation, ULONG Length, FILE_INFORMATION_CLASS FileInformationClass,
                               BOOLEAN ReturnSingleEntry, PUNICODE_STRING FileName, BOOLEAN RestartScan, PULONG LengthReturned)
{
    KZ_CALL();
    Listing one;
    return ask(Instance, FileObject, listing(&one, Length, FileInformationClass, ReturnSingleEntry, FileName, RestartScan), FileInformation, LengthReturned, __func__);
}

NTSTATUS FltQueryDirectoryFileEx(PFLT_INSTANCE Instance, PFILE_OBJECT FileObject, PVOID FileInformation, ULONG Length, FILE_INFORMATION_CLASS FileInformationClass,
                                 ULONG QueryFlags, PUNICODE_STRING FileName, PULONG LengthReturned)
{
    KZ_CALL();
    Listing one;
    return ask(Instance, FileObject, listing(&one, Length, FileInformationClass, (QueryFlags & SL_RETURN_SINGLE_ENTRY) != 0, FileName, (QueryFlags & SL_RESTART_SCAN) != 0), FileInformation, LengthReturned, __func__);
}

NTSTATUS ZwQueryDirectoryFile(HANDLE FileHandle, HANDLE Event, PIO_APC_ROUTINE ApcRoutine, PVOID ApcContext, PIO_STATUS_BLOCK IoStatusBlock, PVOID FileInformation, ULONG Length,
                              FILE_INFORMATION_CLASS FileInformationClass, BOOLEAN ReturnSingleEntry, PUNICODE_STRING FileName, BOOLEAN RestartScan)
{
    KZ_CALL();
    (void)Event, (void)ApcRoutine, (void)ApcContext;
    Listing one;
    return ask_by_handle(FileHandle, IoStatusBlock, listing(&one, Length, FileInformationClass, ReturnSingleEntry, FileName, RestartScan), FileInformation, __func__);
}

/* ---- Volumes: by an open file, or by the instance alone. */
static KzAsked volume_query(ULONG room, FS_INFORMATION_CLASS class)
{
    return (KzAsked){.major = IRP_MJ_QUERY_VOLUME_INFORMATION, .code = (ULONG)class, .room = room, .irp_flags = IRP_BUFFERED_IO};
}

NTSTATUS FltQueryVolumeInformationFile(PFLT_INSTANCE Instance, PFILE_OBJECT FileObject, PVOID FsInformation, ULONG Length, FS_INFORMATION_CLASS FsInformationClass,
                                       PULONG LengthReturned)
{
    KZ_CALL();
    KzAsked asked = volume_query(Length, FsInformationClass);
    return ask(Instance, FileObject, &asked, FsInformation, LengthReturned, __func__);
}

static NTSTATUS ask_volume(PFLT_INSTANCE instance, PIO_STATUS_BLOCK to, const KzAsked *asked, PVOID buffer, const char *call)
{
    uint64_t information = 0;
    if (!instance || !kz_may_use(call, instance))
        return STATUS_INVALID_PARAMETER;
    *to = (IO_STATUS_BLOCK){.Status = kz_ask_volume_below(instance, asked, buffer, &information)};
    to->Information = information;
    return to->Status;
}

NTSTATUS FltQueryVolumeInformation(PFLT_INSTANCE Instance, PIO_STATUS_BLOCK Iosb, PVOID FsInformation, ULONG Length, FS_INFORMATION_CLASS FsInformationClass)
{
    KZ_CALL();
    KzAsked asked = volume_query(Length, FsInformationClass);
    return ask_volume(Instance, Iosb, &asked, FsInformation, __func__);
}

NTSTATUS FltSetVolumeInformation(PFLT_INSTANCE Instance, PIO_STATUS_BLOCK Iosb, PVOID FsInformation, ULONG Length, FS_INFORMATION_CLASS FsInformationClass)
{
    KZ_CALL();
    const KzAsked asked = {.major = IRP_MJ_SET_VOLUME_INFORMATION, .code = (ULONG)FsInformationClass, .input = FsInformation, .input_size = Length, .irp_flags = IRP_BUFFERED_IO};
    return ask_volume(Instance, Iosb, &asked, NULL, __func__);
}

NTSTATUS ZwQueryVolumeInformationFile(HANDLE FileHandle, PIO_STATUS_BLOCK IoStatusBlock, PVOID FsInformation, ULONG Length, FS_INFORMATION_CLASS FsInformationClass)
{
    KZ_CALL();
    KzAsked asked = volume_query(Length, FsInformationClass);
    return ask_by_handle(FileHandle, IoStatusBlock, &asked, FsInformation, __func__);
}

/* ---- Beside the bytes. */
static KzAsked ea_query(ULONG room, BOOLEAN is_single, PVOID list, ULONG list_length, PULONG index, BOOLEAN is_restart)
{
    UCHAR flags = (UCHAR)((is_single ? SL_RETURN_SINGLE_ENTRY : 0) | (is_restart ? SL_RESTART_SCAN : 0) | (index ? SL_INDEX_SPECIFIED : 0));
    return (KzAsked){.major = IRP_MJ_QUERY_EA, .flags = flags, .room = room, .irp_flags = IRP_BUFFERED_IO, .input = list, .input_size = list ? list_length : 0, .from = index ? *index : 0};
}

NTSTATUS FltQueryEaFile(PFLT_INSTANCE Instance, PFILE_OBJECT FileObject, PVOID ReturnedEaData, ULONG Length, BOOLEAN ReturnSingleEntry, PVOID EaList, ULONG EaListLength,
                        PULONG EaIndex, BOOLEAN RestartScan, PULONG LengthReturned)
{
    KZ_CALL();
    KzAsked asked = ea_query(Length, ReturnSingleEntry, EaList, EaListLength, EaIndex, RestartScan);
    return ask(Instance, FileObject, &asked, ReturnedEaData, LengthReturned, __func__);
}

NTSTATUS FltSetEaFile(PFLT_INSTANCE Instance, PFILE_OBJECT FileObject, PVOID EaBuffer, ULONG Length)
{
    KZ_CALL();
    return ask(Instance, FileObject, &(KzAsked){.major = IRP_MJ_SET_EA, .input = EaBuffer, .input_size = Length, .irp_flags = IRP_BUFFERED_IO}, NULL, NULL, __func__);
}

NTSTATUS ZwQueryEaFile(HANDLE FileHandle, PIO_STATUS_BLOCK IoStatusBlock, PVOID Buffer, ULONG Length, BOOLEAN ReturnSingleEntry, PVOID EaList, ULONG EaListLength, PULONG EaIndex, BOOLEAN RestartScan)
{
    KZ_CALL();
    KzAsked asked = ea_query(Length, ReturnSingleEntry, EaList, EaListLength, EaIndex, RestartScan);
    NTSTATUS status = ask_by_handle(FileHandle, IoStatusBlock, &asked, Buffer, __func__);
    if (status == STATUS_NO_EAS_ON_FILE && Buffer) /* the file system clears the caller's room first */
        memset(Buffer, 0, Length);
    return status;
}

NTSTATUS ZwSetEaFile(HANDLE FileHandle, PIO_STATUS_BLOCK IoStatusBlock, PVOID Buffer, ULONG Length)
{
    KZ_CALL();
    return ask_by_handle(FileHandle, IoStatusBlock, &(KzAsked){.major = IRP_MJ_SET_EA, .input = Buffer, .input_size = Length, .irp_flags = IRP_BUFFERED_IO}, NULL, __func__);
}

static KzAsked security_query(SECURITY_INFORMATION what, ULONG room)
{
    return (KzAsked){.major = IRP_MJ_QUERY_SECURITY, .code = what, .room = room};
}

static KzAsked security_set(SECURITY_INFORMATION what, PSECURITY_DESCRIPTOR descriptor)
{
    return (KzAsked){.major = IRP_MJ_SET_SECURITY, .code = what, .input = descriptor, .input_size = RtlLengthSecurityDescriptor(descriptor)};
}

NTSTATUS FltQuerySecurityObject(PFLT_INSTANCE Instance, PFILE_OBJECT FileObject, SECURITY_INFORMATION SecurityInformation, PSECURITY_DESCRIPTOR SecurityDescriptor, ULONG Length,
                                PULONG LengthNeeded)
{
    KZ_CALL();
    KzAsked asked = security_query(SecurityInformation, Length);
    NTSTATUS status = ask(Instance, FileObject, &asked, SecurityDescriptor, LengthNeeded, __func__);
    return status == STATUS_BUFFER_OVERFLOW ? STATUS_BUFFER_TOO_SMALL : status;
}

NTSTATUS FltSetSecurityObject(PFLT_INSTANCE Instance, PFILE_OBJECT FileObject, SECURITY_INFORMATION SecurityInformation, PSECURITY_DESCRIPTOR SecurityDescriptor)
{
    KZ_CALL();
    KzAsked asked = security_set(SecurityInformation, SecurityDescriptor);
    return ask(Instance, FileObject, &asked, NULL, NULL, __func__);
}

NTSTATUS ZwQuerySecurityObject(HANDLE Handle, SECURITY_INFORMATION SecurityInformation, PSECURITY_DESCRIPTOR SecurityDescriptor, ULONG Length, PULONG LengthNeeded)
{
    KZ_CALL();
    IO_STATUS_BLOCK said = {0};
    if (kz_is_key(Handle))
        return kz_key_security(Handle, SecurityInformation, SecurityDescriptor, Length, LengthNeeded);
    KzAsked asked = security_query(SecurityInformation, Length);
    NTSTATUS status = ask_by_handle(Handle, &said, &asked, SecurityDescriptor, __func__);
    *LengthNeeded = (ULONG)said.Information;
    return status == STATUS_BUFFER_OVERFLOW ? STATUS_BUFFER_TOO_SMALL : status;
}

NTSTATUS ZwSetSecurityObject(HANDLE Handle, SECURITY_INFORMATION SecurityInformation, PSECURITY_DESCRIPTOR SecurityDescriptor)
{
    KZ_CALL();
    IO_STATUS_BLOCK said;
    if (kz_is_key(Handle))
        return kz_set_key_security(Handle, SecurityInformation, SecurityDescriptor);
    KzAsked asked = security_set(SecurityInformation, SecurityDescriptor);
    return ask_by_handle(Handle, &said, &asked, NULL, __func__);
}

/* ---- Control codes. */
static KzAsked control(UCHAR major, ULONG code, PVOID input, ULONG input_size, ULONG room)
{
    return (KzAsked){.major = major, .code = code, .input = input, .input_size = input ? input_size : 0, .room = room, .irp_flags = code & 3 ? 0 : IRP_BUFFERED_IO};
}

NTSTATUS FltFsControlFile(PFLT_INSTANCE Instance, PFILE_OBJECT FileObject, ULONG FsControlCode, PVOID InputBuffer, ULONG InputBufferLength, PVOID OutputBuffer,
                          ULONG OutputBufferLength, PULONG LengthReturned)
{
    KZ_CALL();
    KzAsked asked = control(IRP_MJ_FILE_SYSTEM_CONTROL, FsControlCode, InputBuffer, InputBufferLength, OutputBufferLength);
    return ask(Instance, FileObject, &asked, OutputBuffer, LengthReturned, __func__);
}

NTSTATUS FltDeviceIoControlFile(PFLT_INSTANCE Instance, PFILE_OBJECT FileObject, ULONG IoControlCode, PVOID InputBuffer, ULONG InputBufferLength, PVOID OutputBuffer,
                                ULONG OutputBufferLength, PULONG LengthReturned)
{
    KZ_CALL();
    KzAsked asked = control(IRP_MJ_DEVICE_CONTROL, IoControlCode, InputBuffer, InputBufferLength, OutputBufferLength);
    return ask(Instance, FileObject, &asked, OutputBuffer, LengthReturned, __func__);
}

NTSTATUS ZwFsControlFile(HANDLE FileHandle, HANDLE Event, PIO_APC_ROUTINE ApcRoutine, PVOID ApcContext, PIO_STATUS_BLOCK IoStatusBlock, ULONG FsControlCode, PVOID InputBuffer,
                         ULONG InputBufferLength, PVOID OutputBuffer, ULONG OutputBufferLength)
{
    KZ_CALL();
    (void)Event, (void)ApcRoutine, (void)ApcContext;
    KzAsked asked = control(IRP_MJ_FILE_SYSTEM_CONTROL, FsControlCode, InputBuffer, InputBufferLength, OutputBufferLength);
    const KzFile *file = kz_own_file(FileHandle);
    if (file && !(file->object.Flags & FO_SYNCHRONOUS_IO) && kz_waits_for_oplock(FsControlCode))
        kz_tell(KZM_OPLOCK, __func__, "a request that isn't waited for is modelled by FltPerformAsynchronousIo alone: this one is waited for");
    return ask_by_handle(FileHandle, IoStatusBlock, &asked, OutputBuffer, __func__);
}

NTSTATUS ZwDeviceIoControlFile(HANDLE FileHandle, HANDLE Event, PIO_APC_ROUTINE ApcRoutine, PVOID ApcContext, PIO_STATUS_BLOCK IoStatusBlock, ULONG IoControlCode, PVOID InputBuffer,
                               ULONG InputBufferLength, PVOID OutputBuffer, ULONG OutputBufferLength)
{
    KZ_CALL();
    (void)Event, (void)ApcRoutine, (void)ApcContext;
    KzAsked asked = control(IRP_MJ_DEVICE_CONTROL, IoControlCode, InputBuffer, InputBufferLength, OutputBufferLength);
    return ask_by_handle(FileHandle, IoStatusBlock, &asked, OutputBuffer, __func__);
}

/* ---- By callback data of the driver's own. */
static PVOID asked_of_beside(const FLT_IO_PARAMETER_BLOCK *iopb, KzAsked *asked)
{
    const FLT_PARAMETERS *now = &iopb->Parameters;
    switch (iopb->MajorFunction) {
    case IRP_MJ_QUERY_EA:
        asked->room = now->QueryEa.Length;
        asked->input = now->QueryEa.EaList;
        asked->input_size = now->QueryEa.EaList ? now->QueryEa.EaListLength : 0;
        asked->from = now->QueryEa.EaIndex;
        return now->QueryEa.EaBuffer;
    case IRP_MJ_SET_EA:
        asked->input = now->SetEa.EaBuffer;
        asked->input_size = now->SetEa.Length;
        return NULL;
    case IRP_MJ_QUERY_SECURITY:
        *asked = security_query(now->QuerySecurity.SecurityInformation, now->QuerySecurity.Length);
        return now->QuerySecurity.SecurityBuffer;
    default:
        *asked = security_set(now->SetSecurity.SecurityInformation, now->SetSecurity.SecurityDescriptor);
        return NULL;
    }
}

/* What is asked for, and the buffer that the answer comes into; no major function: that isn't modelled. */
static PVOID asked_of(const FLT_IO_PARAMETER_BLOCK *iopb, KzAsked *asked, Listing *one)
{
    const FLT_PARAMETERS *now = &iopb->Parameters;
    *asked = (KzAsked){.major = iopb->MajorFunction, .minor = iopb->MinorFunction, .flags = iopb->OperationFlags, .irp_flags = iopb->IrpFlags};
    switch (iopb->MajorFunction) {
    case IRP_MJ_QUERY_VOLUME_INFORMATION:
        *asked = volume_query(now->QueryVolumeInformation.Length, now->QueryVolumeInformation.FsInformationClass);
        return now->QueryVolumeInformation.VolumeBuffer;
    case IRP_MJ_SET_VOLUME_INFORMATION:
        asked->code = (ULONG)now->SetVolumeInformation.FsInformationClass;
        asked->input = now->SetVolumeInformation.VolumeBuffer;
        asked->input_size = now->SetVolumeInformation.Length;
        return NULL;
    case IRP_MJ_DIRECTORY_CONTROL:
        *asked = *listing(one, now->DirectoryControl.QueryDirectory.Length, now->DirectoryControl.QueryDirectory.FileInformationClass, (iopb->OperationFlags & SL_RETURN_SINGLE_ENTRY) != 0,
                          now->DirectoryControl.QueryDirectory.FileName, (iopb->OperationFlags & SL_RESTART_SCAN) != 0);
        asked->major = iopb->MinorFunction == IRP_MN_QUERY_DIRECTORY ? asked->major : IRP_MJ_MAXIMUM_FUNCTION;
        return now->DirectoryControl.QueryDirectory.DirectoryBuffer;
    case IRP_MJ_FILE_SYSTEM_CONTROL:
    case IRP_MJ_DEVICE_CONTROL:
        *asked = control(iopb->MajorFunction, now->FileSystemControl.Common.FsControlCode, now->FileSystemControl.Buffered.SystemBuffer, now->FileSystemControl.Common.InputBufferLength,
                         now->FileSystemControl.Common.OutputBufferLength);
        return now->FileSystemControl.Buffered.SystemBuffer;
    case IRP_MJ_LOCK_CONTROL:
        asked->from = (uint64_t)now->LockControl.ByteOffset.QuadPart;
        asked->length = now->LockControl.Length ? (uint64_t)now->LockControl.Length->QuadPart : 0;
        asked->flags = (UCHAR)(SL_FAIL_IMMEDIATELY | (now->LockControl.ExclusiveLock ? SL_EXCLUSIVE_LOCK : 0));
        return NULL;
    case IRP_MJ_QUERY_EA:
    case IRP_MJ_SET_EA:
    case IRP_MJ_QUERY_SECURITY:
    case IRP_MJ_SET_SECURITY:
        return asked_of_beside(iopb, asked);
    default:
        asked->major = IRP_MJ_MAXIMUM_FUNCTION;
        return NULL;
    }
}

NTSTATUS kz_ask_as(PFLT_INSTANCE instance, PFLT_IO_PARAMETER_BLOCK iopb, PULONG done, const char *call)
{
    KzAsked asked;
    Listing one;
    PVOID to = asked_of(iopb, &asked, &one);
    if (asked.major != IRP_MJ_MAXIMUM_FUNCTION)
        return ask(instance, iopb->TargetFileObject, &asked, to, done, call);
    kz_tell(KZM_OWN_IO, call, "%s isn't modelled: it answers STATUS_NOT_SUPPORTED", FltGetIrpName(iopb->MajorFunction));
    return STATUS_NOT_SUPPORTED;
}
