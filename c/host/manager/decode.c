/* Where the buffer of an operation lies among its parameters. */
#include "core/client.h"
#include "core/op.h"

/* Information, and what a file and a volume have beside bytes. One of a security descriptor that is set has no length. */
static bool decode_beside(FLT_PARAMETERS *now, UCHAR major, PMDL **mdl, PVOID **buffer, ULONG **length, LOCK_OPERATION *access)
{
    *access = major == IRP_MJ_SET_INFORMATION || major == IRP_MJ_SET_EA || major == IRP_MJ_SET_QUOTA || major == IRP_MJ_SET_VOLUME_INFORMATION ? IoReadAccess : IoWriteAccess;
    switch (major) {
    case IRP_MJ_QUERY_INFORMATION:
        *buffer = &now->QueryFileInformation.InfoBuffer, *length = &now->QueryFileInformation.Length;
        return true;
    case IRP_MJ_SET_INFORMATION:
        *buffer = &now->SetFileInformation.InfoBuffer, *length = &now->SetFileInformation.Length;
        return true;
    case IRP_MJ_QUERY_EA:
        *mdl = &now->QueryEa.MdlAddress, *buffer = &now->QueryEa.EaBuffer, *length = &now->QueryEa.Length;
        return true;
    case IRP_MJ_SET_EA:
        *mdl = &now->SetEa.MdlAddress, *buffer = &now->SetEa.EaBuffer, *length = &now->SetEa.Length;
        return true;
    case IRP_MJ_QUERY_VOLUME_INFORMATION:
    case IRP_MJ_SET_VOLUME_INFORMATION:
        *buffer = &now->QueryVolumeInformation.VolumeBuffer, *length = &now->QueryVolumeInformation.Length;
        return true;
    case IRP_MJ_QUERY_SECURITY:
        *mdl = &now->QuerySecurity.MdlAddress, *buffer = &now->QuerySecurity.SecurityBuffer, *length = &now->QuerySecurity.Length;
        return true;
    case IRP_MJ_QUERY_QUOTA:
        *mdl = &now->QueryQuota.MdlAddress, *buffer = &now->QueryQuota.QuotaBuffer, *length = &now->QueryQuota.Length;
        return true;
    case IRP_MJ_SET_QUOTA:
        *mdl = &now->SetQuota.MdlAddress, *buffer = &now->SetQuota.QuotaBuffer, *length = &now->SetQuota.Length;
        return true;
    case IRP_MJ_FILE_SYSTEM_CONTROL:
    case IRP_MJ_DEVICE_CONTROL:
    case IRP_MJ_INTERNAL_DEVICE_CONTROL:
        *buffer = &now->FileSystemControl.Buffered.SystemBuffer, *length = &now->FileSystemControl.Buffered.OutputBufferLength;
        return true;
    default:
        return false;
    }
}

/* The buffer of an operation, as the kit hands out pointers to its fields. */
/* Of the callback's own operation that is known. */
static void use_data(PFLT_CALLBACK_DATA data)
{
    const KzOp *op = kz_me->place.op;
    if (op && op->data == data)
        kz_scheduler->uses(op, KZU_READS);
    else
        kz_uses_all();
}

NTSTATUS FltDecodeParameters(PFLT_CALLBACK_DATA CallbackData, PMDL **MdlAddressPointer, PVOID **Buffer, PULONG *Length, LOCK_OPERATION *DesiredAccess)
{
    KZ_INSIDE_ALONE();
    use_data(CallbackData);
    kz_gives(MdlAddressPointer);
    kz_gives(Buffer);
    kz_gives(Length);
    kz_gives(DesiredAccess);
    FLT_PARAMETERS *now = &CallbackData->Iopb->Parameters;
    PMDL *mdl = NULL;
    PVOID *buffer;
    ULONG *length;
    LOCK_OPERATION access = IoWriteAccess;
    bool is_notice;
    switch (CallbackData->Iopb->MajorFunction) {
    case IRP_MJ_READ:
        mdl = &now->Read.MdlAddress;
        buffer = &now->Read.ReadBuffer;
        length = &now->Read.Length;
        break;
    case IRP_MJ_WRITE:
        mdl = &now->Write.MdlAddress;
        buffer = &now->Write.WriteBuffer;
        length = &now->Write.Length;
        access = IoReadAccess;
        break;
    case IRP_MJ_DIRECTORY_CONTROL:
        is_notice = CallbackData->Iopb->MinorFunction != IRP_MN_QUERY_DIRECTORY;
        mdl = is_notice ? &now->DirectoryControl.NotifyDirectory.MdlAddress : &now->DirectoryControl.QueryDirectory.MdlAddress;
        buffer = is_notice ? &now->DirectoryControl.NotifyDirectory.DirectoryBuffer : &now->DirectoryControl.QueryDirectory.DirectoryBuffer;
        length = is_notice ? &now->DirectoryControl.NotifyDirectory.Length : &now->DirectoryControl.QueryDirectory.Length;
        break;
    default:
        if (!decode_beside(now, CallbackData->Iopb->MajorFunction, &mdl, &buffer, &length, &access))
            return STATUS_INVALID_PARAMETER;
    }
    if (MdlAddressPointer)
        *MdlAddressPointer = mdl;
    if (Buffer)
        *Buffer = buffer;
    if (Length)
        *Length = length;
    if (DesiredAccess)
        *DesiredAccess = access;
    return STATUS_SUCCESS;
}
