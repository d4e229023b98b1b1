/* Files that a driver opens by itself. */
#include "kit/fltcreate.h"

#include "core/client.h"
#include "core/op.h"
#include "core/told.h"
#include "core/transaction.h"
#include "lib/letters.h"
#include "filesystem/fileobject.h"
#include "filesystem/handle.h"
#include "filesystem/name.h"
#include "filesystem/create.h"
#include "filesystem/sharing.h"
#include "filesystem/tree.h"
#include "filesystem/version.h"
#include "filesystem/volumes.h"
#include "manager/below.h"
#include "manager/disposition.h"
#include "manager/instance.h"
#include "manager/reference.h"
#include "manager/reparse.h"

/* ---- Names: below a volume's device or its letter, from a directory's handle, or as the kit's own folders have them. */
typedef struct {
    PFLT_VOLUME volume;
    char path[KZ_PATH];
    bool is_volume; /* and nothing on it */
} Named;

/* Folders of the system, which hold names of devices: a separator behind one isn't a file's. */
static bool is_of_system(const char *name)
{
    static const char *const folders[] = {"/?\?/", "/DosDevices/", "/GLOBAL?\?/", "/Device/", "//?/"};
    for (size_t at = 0; at < sizeof folders / sizeof folders[0]; at++)
        if (KzStricmp(name, folders[at]) == 0)
            return true;
    return false;
}

static NTSTATUS name_of(POBJECT_ATTRIBUTES attributes, Named *named)
{
    char name[KZ_WHOLE_PATH];
    const char *rest = name;
    if (!attributes || !attributes->ObjectName)
        return STATUS_INVALID_PARAMETER;
    if (kz_narrow(name, sizeof name, attributes->ObjectName) >= sizeof name)
        return STATUS_OBJECT_NAME_INVALID;
    KzFile *root = attributes->RootDirectory ? kz_own_file(attributes->RootDirectory) : NULL;
    if (attributes->RootDirectory && !root)
        return STATUS_INVALID_HANDLE;
    if (!root && name[0] != '/')
        return STATUS_OBJECT_PATH_SYNTAX_BAD;
    if (root ? name[0] == '/' : is_of_system(name))
        return STATUS_OBJECT_NAME_INVALID;
    if (root)
        *named = (Named){.volume = root->volume};
    else
        *named = (Named){.volume = kz_volume_named(name, &rest)};
    if (!named->volume)
        return STATUS_OBJECT_PATH_NOT_FOUND;
    const char *begins = root ? kz_name_now(root) : "";
    named->is_volume = !root && !*rest;
    rest += *rest == '/';
    char path[2 * KZ_WHOLE_PATH];
    snprintf(path, sizeof path, "%s%s%s", begins, *begins && *rest ? "/" : "", rest);
    kz_tell_long_path(path, "a create");
    if (strlen(path) >= sizeof named->path)
        return STATUS_OBJECT_NAME_INVALID;
    strcpy(named->path, path);
    return STATUS_SUCCESS;
}

/* ---- Opening. */
typedef struct {
    PFLT_INSTANCE instance;
    POBJECT_ATTRIBUTES attributes;
    KzCreate create;
    const char *call, *closed_by;
    PECP_LIST ecps;
} Wanted;

/* A create that is begun for the driver, and the file that it opened, which has one user more. */
typedef struct {
    const Wanted *wanted;
    KzFile *file;
} Opening;

static KzAnswer begin(void *given, KazdrinEvent asked, const char *path)
{
    Opening *opening = given;
    PFLT_INSTANCE instance = opening->wanted->instance;
    const KzCreate *create = &opening->wanted->create;
    const KzOwn own = {.initiator = instance, .is_waited_for = true, .ecps = opening->wanted->ecps, .create = create};
    if (instance && instance->volume->id != asked.volume)
        return (KzAnswer){.reply.status = KZS_BAD_PATH, .other = STATUS_MOUNT_POINT_NOT_RESOLVED};
    KzFile *file = kz_new_file(kz.volumes[asked.volume], path, kz_opens_directory(create, kz.volumes[asked.volume], path));
    file->users++;
    file->is_own = true;
    file->opener = instance;
    if (create->is_volume)
        kz_be_volume(file);
    KzAnswer answer = kz_below(&own, file, asked, path, strlen(path));
    opening->file = answer.reply.status == KZS_OK && !answer.reply.held ? file : NULL;
    if (!opening->file)
        kz_let_go_file(file);
    return answer;
}

static const KzName *name_with(PFLT_VOLUME volume, ULONGLONG id)
{
    for (const KzName *one = kz_all_names(); one; one = one->next)
        if (!one->is_gone && !one->base && one->volume == volume && one->file->exists && one->file->id == id)
            return one;
    return NULL;
}

/* A number of so many bytes at the end of a name; in front of it the volume's own name, unless an instance or a handle says which volume it is. */
static bool ends_with_id(PCUNICODE_STRING said, size_t bytes, PFLT_VOLUME *volume, ULONGLONG *id)
{
    char name[128];
    const char *rest;
    ULONGLONG number[2] = {0, 0};
    if (said->Length < bytes)
        return false;
    UNICODE_STRING before = {(USHORT)(said->Length - bytes), 0, said->Buffer};
    memcpy(number, (const uint8_t *)said->Buffer + before.Length, bytes);
    *id = number[0];
    if (before.Length) {
        kz_narrow(name, sizeof name, &before);
        PFLT_VOLUME named = before.Buffer[before.Length / sizeof(WCHAR) - 1] == '\\' ? kz_volume_named(name, &rest) : NULL;
        *volume = named && strcmp(rest, "/") == 0 ? named : NULL;
    }
    return *volume && !number[1];
}

/* By its number, of 8 or of 16 bytes. */
static NTSTATUS name_by_id(const Wanted *wanted, Named *named)
{
    ULONGLONG id;
    PCUNICODE_STRING said = wanted->attributes ? wanted->attributes->ObjectName : NULL;
    const KzFile *root = said && wanted->attributes->RootDirectory ? kz_own_file(wanted->attributes->RootDirectory) : NULL;
    PFLT_VOLUME hint = root ? root->volume : wanted->instance ? wanted->instance->volume : NULL, volume = hint;
    bool is_one = said && (ends_with_id(said, sizeof id, &volume, &id) || (volume = hint, ends_with_id(said, 2 * sizeof id, &volume, &id)));
    const KzName *found = is_one ? name_with(volume, id) : NULL;
    if (!found)
        return STATUS_INVALID_PARAMETER;
    named->volume = volume;
    strcpy(named->path, found->text);
    return STATUS_SUCCESS;
}

static NTSTATUS create(const Wanted *wanted, KzFile **made)
{
    Named named = {0};
    ULONG disposition = wanted->create.options >> 24;
    NTSTATUS status = wanted->create.options & FILE_OPEN_BY_FILE_ID ? name_by_id(wanted, &named) : name_of(wanted->attributes, &named);
    if (!NT_SUCCESS(status))
        return status;
    if (wanted->instance && wanted->instance->volume != named.volume)
        return STATUS_INVALID_DEVICE_OBJECT_PARAMETER;
    if (disposition > FILE_MAXIMUM_DISPOSITION)
        return STATUS_INVALID_PARAMETER;
    Wanted of_volume = *wanted;
    of_volume.create.is_volume = named.is_volume && !(wanted->create.options & FILE_DIRECTORY_FILE);
    Opening opening = {&of_volume, NULL};
    KazdrinEvent event = {.event = KZE_CREATE, .volume = named.volume->id, .mode = kz_mode_of(disposition)};
    status = kz_status_of(kz_follow(begin(&opening, event, named.path), &opening, begin));
    if (NT_SUCCESS(status))
        *made = opening.file;
    return status;
}

/* What a call asks for, which the system checks only where it is told to. */
static KzCreate asked_by(ACCESS_MASK access, PLARGE_INTEGER allocation, ULONG attributes, ULONG share, ULONG disposition, ULONG options)
{
    return (KzCreate){.access = kz_map_access(access),
                      .options = disposition << 24 | (options & FILE_VALID_OPTION_FLAGS),
                      .beyond = options & ~(ULONG)FILE_VALID_OPTION_FLAGS,
                      .attributes = attributes,
                      .share = share,
                      .allocation = allocation ? allocation->QuadPart : 0};
}

static void add_extended(KzCreate *create, PVOID ea, ULONG length, ULONG flags)
{
    create->ea = ea;
    create->ea_length = ea ? length : 0;
    create->ignores_sharing = flags & IO_IGNORE_SHARE_ACCESS_CHECK;
}

/* Without that word the handle is one of the program whose operation it is, which may close it, and use it. */
static void check_handle(const Wanted *wanted)
{
    bool is_programs = kz_me->place.op && kz_me->process != 4 && wanted->attributes && !(wanted->attributes->Attributes & OBJ_KERNEL_HANDLE);
    if (is_programs)
        kz_tell(KZM_PROGRAMS_HANDLE, wanted->call, "opens a handle in a program's process without OBJ_KERNEL_HANDLE: the program may close it, and use it");
}

static NTSTATUS open_file(const Wanted *wanted, PHANDLE handle, PFILE_OBJECT *object, PIO_STATUS_BLOCK status)
{
    KzFile *file;
    *handle = NULL;
    if (object)
        *object = NULL;
    if (!kz_may_use(wanted->call, wanted->instance))
        return STATUS_INVALID_PARAMETER;
    if (kz_recurses(wanted->call))
        return STATUS_INSUFFICIENT_RESOURCES;
    check_handle(wanted);
    NTSTATUS opened = create(wanted, &file);
    if (!NT_SUCCESS(opened)) /* the block is as it was, whether it pended or not */
        return opened;
    *status = (IO_STATUS_BLOCK){.Status = opened, .Information = file->created};
    *handle = kz_file_handle(file, wanted->closed_by);
    if (object) {
        *object = &file->object;
        kz_take_object(&file->object, false, wanted->call);
    }
    return opened; /* it may be open beside the break of an oplock */
}

NTSTATUS FltCreateFileEx2(PFLT_FILTER Filter, PFLT_INSTANCE Instance, PHANDLE FileHandle, PFILE_OBJECT *FileObject, ACCESS_MASK DesiredAccess,
                          POBJECT_ATTRIBUTES ObjectAttributes, PIO_STATUS_BLOCK IoStatusBlock, PLARGE_INTEGER AllocationSize, ULONG FileAttributes,
                          ULONG ShareAccess, ULONG CreateDisposition, ULONG CreateOptions, PVOID EaBuffer, ULONG EaLength, ULONG Flags,
                          PIO_DRIVER_CREATE_CONTEXT DriverContext)
{
    KZ_CALL();
    (void)Filter;
    PECP_LIST ecps = DriverContext ? DriverContext->ExtraCreateParameter : NULL;
    Wanted wanted = {Instance, ObjectAttributes, asked_by(DesiredAccess, AllocationSize, FileAttributes, ShareAccess, CreateDisposition, CreateOptions), __func__, "FltClose", ecps};
    add_extended(&wanted.create, EaBuffer, EaLength, Flags);
    const TXN_PARAMETER_BLOCK *in = DriverContext ? DriverContext->TxnParameters : NULL;
    wanted.create.transaction = in && kz_is_transaction(in->TransactionObject) ? in->TransactionObject : NULL;
    return open_file(&wanted, FileHandle, FileObject, IoStatusBlock);
}

PTXN_PARAMETER_BLOCK IoGetTransactionParameterBlock(PFILE_OBJECT FileObject)
{
    KZ_INSIDE_ALONE();
    const KzFile *file = kz_file_with(FileObject);
    return file && file->transaction ? &file->transaction->block : NULL;
}

NTSTATUS FltCreateFileEx(PFLT_FILTER Filter, PFLT_INSTANCE Instance, PHANDLE FileHandle, PFILE_OBJECT *FileObject, ACCESS_MASK DesiredAccess,
                         POBJECT_ATTRIBUTES ObjectAttributes, PIO_STATUS_BLOCK IoStatusBlock, PLARGE_INTEGER AllocationSize, ULONG FileAttributes,
                         ULONG ShareAccess, ULONG CreateDisposition, ULONG CreateOptions, PVOID EaBuffer, ULONG EaLength, ULONG Flags)
{
    KZ_CALL();
    (void)Filter;
    Wanted wanted = {Instance, ObjectAttributes, asked_by(DesiredAccess, AllocationSize, FileAttributes, ShareAccess, CreateDisposition, CreateOptions), __func__, "FltClose", NULL};
    add_extended(&wanted.create, EaBuffer, EaLength, Flags);
    return open_file(&wanted, FileHandle, FileObject, IoStatusBlock);
}

NTSTATUS FltCreateFile(PFLT_FILTER Filter, PFLT_INSTANCE Instance, PHANDLE FileHandle, ACCESS_MASK DesiredAccess, POBJECT_ATTRIBUTES ObjectAttributes,
                       PIO_STATUS_BLOCK IoStatusBlock, PLARGE_INTEGER AllocationSize, ULONG FileAttributes, ULONG ShareAccess, ULONG CreateDisposition,
                       ULONG CreateOptions, PVOID EaBuffer, ULONG EaLength, ULONG Flags)
{
    KZ_CALL();
    (void)Filter;
    Wanted wanted = {Instance, ObjectAttributes, asked_by(DesiredAccess, AllocationSize, FileAttributes, ShareAccess, CreateDisposition, CreateOptions), __func__, "FltClose", NULL};
    add_extended(&wanted.create, EaBuffer, EaLength, Flags);
    return open_file(&wanted, FileHandle, NULL, IoStatusBlock);
}

NTSTATUS ZwCreateFile(PHANDLE FileHandle, ACCESS_MASK DesiredAccess, POBJECT_ATTRIBUTES ObjectAttributes, PIO_STATUS_BLOCK IoStatusBlock,
                      PLARGE_INTEGER AllocationSize, ULONG FileAttributes, ULONG ShareAccess, ULONG CreateDisposition, ULONG CreateOptions, PVOID EaBuffer,
                      ULONG EaLength)
{
    KZ_CALL();
    Wanted wanted = {NULL, ObjectAttributes, asked_by(DesiredAccess, AllocationSize, FileAttributes, ShareAccess, CreateDisposition, CreateOptions), __func__, "ZwClose", NULL};
    add_extended(&wanted.create, EaBuffer, EaLength, 0);
    return open_file(&wanted, FileHandle, NULL, IoStatusBlock);
}

NTSTATUS ZwOpenFile(PHANDLE FileHandle, ACCESS_MASK DesiredAccess, POBJECT_ATTRIBUTES ObjectAttributes, PIO_STATUS_BLOCK IoStatusBlock, ULONG ShareAccess,
                    ULONG OpenOptions)
{
    KZ_CALL();
    const Wanted wanted = {NULL, ObjectAttributes, asked_by(DesiredAccess, NULL, 0, ShareAccess, FILE_OPEN, OpenOptions), __func__, "ZwClose", NULL};
    return open_file(&wanted, FileHandle, NULL, IoStatusBlock);
}

NTSTATUS ZwDeleteFile(POBJECT_ATTRIBUTES ObjectAttributes)
{
    KZ_CALL();
    const KzCreate deletes = asked_by(DELETE, NULL, 0, FILE_SHARE_VALID_FLAGS, FILE_OPEN, FILE_DELETE_ON_CLOSE);
    const Wanted wanted = {NULL, ObjectAttributes, deletes, __func__, "ZwClose", NULL};
    KzFile *file;
    NTSTATUS status = create(&wanted, &file);
    if (!NT_SUCCESS(status))
        return status;
    kz_close_below(NULL, file);
    kz_let_go_file(file);
    return STATUS_SUCCESS;
}

/* As a program opens it, below the instance. */
NTSTATUS FltOpenVolume(PFLT_INSTANCE Instance, PHANDLE VolumeHandle, PFILE_OBJECT *VolumeFileObject)
{
    KZ_CALL();
    WCHAR letters[64];
    UNICODE_STRING name = {0, sizeof letters, letters};
    OBJECT_ATTRIBUTES attributes;
    IO_STATUS_BLOCK status;
    *VolumeHandle = NULL;
    if (!kz_may_use(__func__, Instance) || !NT_SUCCESS(FltGetVolumeName(Instance->volume, &name, NULL)))
        return STATUS_INVALID_PARAMETER;
    InitializeObjectAttributes(&attributes, &name, OBJ_KERNEL_HANDLE, NULL, NULL);
    const Wanted wanted = {Instance, &attributes, asked_by(FILE_READ_DATA | FILE_READ_ATTRIBUTES | SYNCHRONIZE, NULL, 0, FILE_SHARE_READ | FILE_SHARE_WRITE, FILE_OPEN, FILE_SYNCHRONOUS_IO_NONALERT), __func__, "FltClose", NULL};
    return open_file(&wanted, VolumeHandle, VolumeFileObject, &status);
}

/* ---- Closing. */
static void close_file(KzFile *file)
{
    kz_clean_up_below(file);
    bool is_last = file->users == 1; /* a dismount took its handle */
    kz_let_go_file(file);
    if (!is_last)
        kz_close_if_due(file);
}

/* False: it is none of these. */
bool kz_close_handle(HANDLE handle)
{
    KzFile *file;
    if (!kz_drop_handle(handle, &file))
        return false;
    if (file)
        close_file(file);
    return true;
}

void kz_close_handles_of(uint64_t process)
{
    for (HANDLE handle = NULL; process && (handle = kz_handle_of_process(process));)
        kz_close_handle(handle);
}

NTSTATUS FltClose(HANDLE FileHandle)
{
    KZ_CALL();
    return kz_close_handle(FileHandle) ? STATUS_SUCCESS : ZwClose(FileHandle);
}

/* An open is cancelled in its postoperation: those below hear of a cleanup and a close. What the caller, and those above, are told is the status that the filter then sets. */
VOID FltCancelFileOpen(PFLT_INSTANCE Instance, PFILE_OBJECT FileObject)
{
    KZ_CALL();
    KzOp *op = kz_me->place.op;
    uint64_t handle;
    bool is_its = op && op->event == KZE_CREATE && &op->file->object == FileObject && kz_me->place.callback == KZ_IN_POST && !op->is_cancelled;
    if (!is_its || !kz_handle_of(op->file, &handle)) {
        kz_tell(KZM_NOT_OPENED, __func__, "of a file object whose create isn't in its postoperation here, or failed");
        return;
    }
    op->is_cancelled = true;
    kz_close_below(Instance, op->file);
    op->file->is_opening = false;
    FileObject->Flags |= FO_FILE_OPEN_CANCELLED;
}
