/* Devices of a driver's own: programs open them by a symbolic link or by their names, and each call of theirs is an IRP for one of the driver's dispatch routines. */
#include "kit/device.h"

#include "core/client.h"
#include "core/memory.h"
#include "core/module.h"
#include "core/piece.h"
#include "core/place.h"
#include "core/pool.h"
#include "core/state.h"
#include "core/told.h"
#include "lib/letters.h"
#include "manager/context.h"
#include "manager/hand.h"

#include <stdlib.h>
#include <string.h>

struct KzDevice {
    struct KzDevice *next;
    PDEVICE_OBJECT object;
    PFLT_FILTER filter;
    char name[128];
    unsigned handles;
    bool is_exclusive, is_deleted;
};

typedef struct Link {
    struct Link *next;
    char name[128], target[128];
    PVOID mark;
} Link;

/* An IRP, until its dispatch routine has returned and it is completed. */
typedef struct Request {
    struct Request *next;
    PIRP irp;
    bool is_completed;
} Request;

struct KzDeviceState {
    KzDevice *devices;
    Link *links;
    Request *requests;
};

/* ---- Devices and links. */
NTSTATUS IoCreateDevice(PDRIVER_OBJECT DriverObject, ULONG DeviceExtensionSize, PUNICODE_STRING DeviceName, DEVICE_TYPE DeviceType, ULONG DeviceCharacteristics,
                        BOOLEAN Exclusive, PDEVICE_OBJECT *DeviceObject)
{
    KZ_CALL();
    PDEVICE_OBJECT made = ExAllocatePoolZero(NonPagedPool, sizeof *made + DeviceExtensionSize, 'iveD');
    *DeviceObject = made;
    if (!made)
        return STATUS_INSUFFICIENT_RESOURCES;
    KzDevice *device = kz_memory(sizeof *device);
    *device = (KzDevice){.next = kz.device->devices, .object = made, .filter = kz_me->place.filter, .is_exclusive = Exclusive};
    if (DeviceName)
        kz_narrow(device->name, sizeof device->name, DeviceName);
    kz.device->devices = device;
    made->Type = 3;
    made->Size = (USHORT)(sizeof *made + DeviceExtensionSize);
    made->DriverObject = DriverObject;
    made->DeviceType = DeviceType;
    made->Characteristics = DeviceCharacteristics;
    made->StackSize = 1;
    made->DeviceExtension = made + 1;
    made->Flags = DO_DEVICE_INITIALIZING | (Exclusive ? DO_EXCLUSIVE : 0);
    made->NextDevice = DriverObject->DeviceObject;
    DriverObject->DeviceObject = made;
    kz_scheduler->touch(device, 0, KZT_GIVES);
    return STATUS_SUCCESS;
}

static void offer_devices(PFLT_FILTER filter)
{
    for (KzDevice *one = kz.device->devices; one; one = one->next)
        if (one->filter == filter && !one->is_deleted)
            one->object->Flags &= ~(ULONG)DO_DEVICE_INITIALIZING;
}

static KzDevice *device_of(PDEVICE_OBJECT object)
{
    KzDevice *one = kz.device->devices;
    while (one && one->object != object)
        one = one->next;
    return one;
}

const char *kz_device_name(const void *object)
{
    const KzDevice *one = device_of((PDEVICE_OBJECT)object);
    return one && *one->name ? one->name : NULL;
}

/* One that is deleted stays until its last handle is closed. */
static void free_if_due(KzDevice *device)
{
    if (!device->is_deleted || device->handles)
        return;
    KzDevice **at = &kz.device->devices;
    while (*at != device)
        at = &(*at)->next;
    *at = device->next;
    ExFreePoolWithTag(device->object, 'iveD');
    free(device);
}

VOID IoDeleteDevice(PDEVICE_OBJECT DeviceObject)
{
    KZ_CALL();
    KzDevice *device = device_of(DeviceObject);
    if (!device || device->is_deleted) {
        kz_tell(KZM_NO_HANDLE, __func__, "no device (deleted twice?)");
        return;
    }
    PDEVICE_OBJECT *at = &DeviceObject->DriverObject->DeviceObject;
    while (*at && *at != DeviceObject)
        at = &(*at)->NextDevice;
    if (*at)
        *at = DeviceObject->NextDevice;
    device->is_deleted = true;
    free_if_due(device);
}

/* Behind the folder of links: the kit has three names for it. */
static const char *name_of_link(const char *name)
{
    static const char *const folders[] = {"/DosDevices/", "/?" "?/", "/GLOBAL?" "?/"};
    for (size_t at = 0; at < sizeof folders / sizeof folders[0]; at++)
        if (KzStrnicmp(name, folders[at], strlen(folders[at])) == 0)
            return name + strlen(folders[at]);
    return name;
}

static Link **place_of(const char *name)
{
    Link **at = &kz.device->links;
    while (*at && KzStrnicmp((*at)->name, name, sizeof (*at)->name) != 0)
        at = &(*at)->next;
    return at;
}

NTSTATUS IoCreateSymbolicLink(PUNICODE_STRING SymbolicLinkName, PUNICODE_STRING DeviceName)
{
    KZ_CALL();
    char name[128];
    kz_narrow(name, sizeof name, SymbolicLinkName);
    Link **at = place_of(name_of_link(name));
    if (*at)
        return STATUS_OBJECT_NAME_COLLISION;
    if (kz_refuses(KZ_CHOICE_POOL, __func__))
        return STATUS_INSUFFICIENT_RESOURCES;
    *at = kz_memory(sizeof **at);
    **at = (Link){.mark = kz_owe()};
    snprintf((*at)->name, sizeof (*at)->name, "%s", name_of_link(name));
    kz_narrow((*at)->target, sizeof (*at)->target, DeviceName);
    return STATUS_SUCCESS;
}

NTSTATUS IoDeleteSymbolicLink(PUNICODE_STRING SymbolicLinkName)
{
    KZ_CALL();
    char name[128];
    kz_narrow(name, sizeof name, SymbolicLinkName);
    Link **at = place_of(name_of_link(name)), *gone = *at;
    if (!gone)
        return STATUS_OBJECT_NAME_NOT_FOUND;
    *at = gone->next;
    kz_pay(gone->mark, __func__);
    free(gone);
    return STATUS_SUCCESS;
}

/* ---- IRPs. */
VOID IofCompleteRequest(PIRP Irp, CCHAR PriorityBoost)
{
    KZ_CALL();
    (void)PriorityBoost;
    Request *one = kz.device->requests;
    while (one && one->irp != Irp)
        one = one->next;
    if (!one || one->is_completed) {
        kz_tell(KZM_IRP, "IoCompleteRequest", "of no IRP that a driver has (completed twice?)");
        return;
    }
    one->is_completed = true;
    kz.changes++;
    kz_scheduler->touch(one, 0, KZT_GIVES);
}

static bool is_completed(void *request)
{
    return ((Request *)request)->is_completed;
}

static void tell_end(const Request *one, NTSTATUS said)
{
    if (said != STATUS_PENDING && !one->is_completed)
        kz_tell(KZM_IRP, "IoCompleteRequest", "never called by a dispatch routine that answered 0x%08x", said);
    else if (said != STATUS_PENDING && said != one->irp->IoStatus.Status)
        kz_tell(KZM_IRP, "IoCompleteRequest", "of an IRP with 0x%08x, and its dispatch routine answered 0x%08x", one->irp->IoStatus.Status, said);
}

/* What a routine leaves uncompleted is over all the same, so that a program goes on. */
static NTSTATUS dispatch(KzDevice *device, Request *one)
{
    PDRIVER_DISPATCH routine = device->object->DriverObject->MajorFunction[IoGetCurrentIrpStackLocation(one->irp)->MajorFunction];
    if (!routine)
        return STATUS_INVALID_DEVICE_REQUEST;
    uint8_t worker = kz_helper();
    KzPlace before = kz_enter(KZ_IN_DISPATCH, worker, device->filter, NULL, NULL, NULL);
    kz_call_at(PASSIVE_LEVEL);
    kz_scheduler->touch(device, 0, KZT_TAKES);
    one->next = kz.device->requests;
    kz.device->requests = one;
    unsigned depth = kz_let_driver("dispatch", (PVOID)routine);
    NTSTATUS said = KZ_CALL_DRIVER(routine, device->object, one->irp);
    kz_driver_returned(depth, "dispatch returns");
    tell_end(one, said);
    kz_keep_rest(NULL);
    kz_leave(before);
    kz_helped(worker);
    kz_clean_up();
    kz_me->has_pended = said == STATUS_PENDING;
    if (said == STATUS_PENDING && !one->is_completed)
        kz_wait_for(is_completed, one, -1, "an IRP to be completed");
    kz_scheduler->touch(one, 0, KZT_TAKES);
    Request **at = &kz.device->requests;
    while (*at != one)
        at = &(*at)->next;
    *at = one->next;
    return one->is_completed ? one->irp->IoStatus.Status : STATUS_UNSUCCESSFUL;
}

/* How the bytes of a call get there: by a buffer of the I/O manager's, by a description, or as they are. */
enum { BUFFERED, IN_DIRECT, OUT_DIRECT, NEITHER };

static unsigned method_of(const KzDevice *device, const KzDeviceAsk *asked)
{
    if (asked->major == IRP_MJ_DEVICE_CONTROL)
        return asked->code & 3;
    ULONG flags = device->object->Flags;
    return flags & DO_BUFFERED_IO ? BUFFERED : flags & DO_DIRECT_IO ? OUT_DIRECT : NEITHER;
}

static void *captured(const void *bytes, ULONG length, ULONG room)
{
    void *made = kz_take_memory(KZK_BUFFER, room, 0, 0);
    if (length)
        memcpy(made, bytes, length);
    return made;
}

static void give_buffers(PIRP irp, const KzDeviceAsk *asked, unsigned method)
{
    bool is_control = asked->major == IRP_MJ_DEVICE_CONTROL, is_write = asked->major == IRP_MJ_WRITE;
    ULONG room = asked->in_length > asked->out_length ? asked->in_length : asked->out_length;
    if (method == NEITHER) {
        irp->UserBuffer = is_write ? asked->in : asked->out;
        return;
    }
    if (method == BUFFERED || (is_control && asked->in_length))
        irp->AssociatedIrp.SystemBuffer = room ? captured(asked->in, asked->in_length, method == BUFFERED ? room : asked->in_length) : NULL;
    ULONG length = is_write ? asked->in_length : asked->out_length;
    if (method != BUFFERED && length) {
        irp->MdlAddress = kz_take_memory(KZK_BUFFER, sizeof *irp->MdlAddress, 0, 0);
        MmInitializeMdl(irp->MdlAddress, is_write ? asked->in : asked->out, length);
        irp->MdlAddress->Size = sizeof *irp->MdlAddress;
        irp->MdlAddress->MdlFlags |= MDL_PAGES_LOCKED;
    }
}

static void fill_stack(PIO_STACK_LOCATION stack, const KzDeviceAsk *asked, unsigned method)
{
    if (asked->major == IRP_MJ_DEVICE_CONTROL) {
        stack->Parameters.DeviceIoControl.OutputBufferLength = asked->out_length;
        stack->Parameters.DeviceIoControl.InputBufferLength = asked->in_length;
        stack->Parameters.DeviceIoControl.IoControlCode = asked->code;
        stack->Parameters.DeviceIoControl.Type3InputBuffer = method == NEITHER ? asked->in : NULL;
    } else if (asked->major == IRP_MJ_READ || asked->major == IRP_MJ_WRITE) {
        stack->Parameters.Read.Length = asked->major == IRP_MJ_WRITE ? asked->in_length : asked->out_length;
        stack->Parameters.Read.ByteOffset.QuadPart = (LONGLONG)asked->offset;
    } else if (asked->major == IRP_MJ_CREATE) {
        stack->Parameters.Create.Options = FILE_OPEN << 24;
    }
}

/* As in the kit a driver's own routine is asked first, with the program's buffers as they are: where that answers TRUE, no IRP is made. */
static bool asks_fast(KzDeviceFile *file, const KzDeviceAsk *asked, IO_STATUS_BLOCK *answer)
{
    KzDevice *device = file->device;
    const FAST_IO_DISPATCH *fast = device->object->DriverObject->FastIoDispatch;
    *answer = (IO_STATUS_BLOCK){.Status = STATUS_SUCCESS};
    if (asked->major != IRP_MJ_DEVICE_CONTROL || !fast || !fast->FastIoDeviceControl)
        return false;
    uint8_t worker = kz_helper();
    KzPlace before = kz_enter(KZ_IN_DISPATCH, worker, device->filter, NULL, NULL, NULL);
    kz_call_at(PASSIVE_LEVEL);
    kz_scheduler->touch(device, 0, KZT_TAKES);
    unsigned depth = kz_let_driver("fast device control", fast->FastIoDeviceControl);
    bool is_answered = KZ_CALL_DRIVER(fast->FastIoDeviceControl, file->object, TRUE, asked->in, asked->in_length, asked->out, asked->out_length, asked->code, answer, device->object);
    kz_driver_returned(depth, "fast device control returns");
    kz_keep_rest(NULL);
    kz_leave(before);
    kz_helped(worker);
    kz_clean_up();
    return is_answered;
}

NTSTATUS kz_ask_device(KzDeviceFile *file, const KzDeviceAsk *asked, ULONG_PTR *information)
{
    KZ_CALL();
    IO_STATUS_BLOCK fast;
    kz_me->has_pended = false;
    if (asks_fast(file, asked, &fast)) {
        *information = fast.Information;
        return fast.Status;
    }
    unsigned method = method_of(file->device, asked);
    PIRP irp = kz_take_memory(KZK_BUFFER, sizeof *irp, 0, 0);
    PIO_STACK_LOCATION stack = kz_take_memory(KZK_BUFFER, sizeof *stack, 0, 0);
    irp->Type = 6;
    irp->Size = sizeof *irp;
    irp->RequestorMode = UserMode;
    irp->StackCount = irp->CurrentLocation = 1;
    irp->Tail.Overlay.CurrentStackLocation = stack;
    irp->Tail.Overlay.OriginalFileObject = stack->FileObject = file->object;
    stack->MajorFunction = asked->major;
    stack->DeviceObject = file->device->object;
    give_buffers(irp, asked, method);
    fill_stack(stack, asked, method);
    Request one = {.irp = irp};
    NTSTATUS status = dispatch(file->device, &one);
    *information = one.is_completed ? irp->IoStatus.Information : 0;
    if (method == BUFFERED && !NT_ERROR(status) && asked->out_length)
        memcpy(asked->out, irp->AssociatedIrp.SystemBuffer, *information < asked->out_length ? *information : asked->out_length);
    kz_give_back(irp->AssociatedIrp.SystemBuffer);
    kz_give_back(irp->MdlAddress);
    kz_give_back(stack);
    kz_give_back(irp);
    return status;
}

/* ---- Handles. */
static KzDevice *find(const char *name, const char **rest)
{
    size_t longest = 0;
    KzDevice *found = NULL;
    for (KzDevice *one = kz.device->devices; one; one = one->next) {
        size_t length = strlen(one->name);
        if (!one->is_deleted && length > longest && KzStrnicmp(name, one->name, length) == 0 && (name[length] == '/' || !name[length])) {
            found = one;
            longest = length;
        }
    }
    *rest = name + longest;
    return found;
}

static KzDevice *device_by(const char *name, char *room, size_t size, const char **rest)
{
    *rest = name;
    if (strncmp(name, "//./", 4) != 0 && strncmp(name, "//?/", 4) != 0)
        return NULL;
    name += 4;
    if (KzStrnicmp(name, "GLOBALROOT/", 11) == 0)
        return find(name + 10, rest);
    size_t length = strcspn(name, "/");
    snprintf(room, size, "%.*s", (int)length, name);
    Link *link = *place_of(room);
    if (!link)
        return NULL;
    snprintf(room, size, "%s%s", link->target, name + length);
    return find(room, rest);
}

NTSTATUS kz_open_device(const char *name, KzDeviceFile *made)
{
    char room[512];
    const char *rest;
    ULONG_PTR information;
    KzDevice *device = device_by(name, room, sizeof room, &rest);
    if (!device)
        return STATUS_OBJECT_NAME_NOT_FOUND;
    if (device->object->Flags & DO_DEVICE_INITIALIZING)
        return STATUS_NO_SUCH_DEVICE;
    if (device->is_exclusive && device->handles)
        return STATUS_ACCESS_DENIED;
    *made = (KzDeviceFile){device, kz_take_memory(KZK_BUFFER, sizeof *made->object, 0, 0)};
    made->object->Type = 5;
    made->object->Size = sizeof *made->object;
    made->object->DeviceObject = device->object;
    kz_give_name(&made->object->FileName, rest, false);
    device->handles++;
    NTSTATUS status = kz_ask_device(made, &(KzDeviceAsk){.major = IRP_MJ_CREATE}, &information);
    if (!NT_SUCCESS(status)) {
        device->handles--;
        kz_give_back(made->object->FileName.Buffer);
        kz_give_back(made->object);
        free_if_due(device);
    }
    return status;
}

void kz_close_device(KzDeviceFile *file)
{
    ULONG_PTR information;
    kz_ask_device(file, &(KzDeviceAsk){.major = IRP_MJ_CLEANUP}, &information);
    kz_ask_device(file, &(KzDeviceAsk){.major = IRP_MJ_CLOSE}, &information);
    file->device->handles--;
    kz_give_back(file->object->FileName.Buffer);
    kz_give_back(file->object);
    free_if_due(file->device);
}

static void free_devices(void)
{
    while (kz.device->devices) {
        KzDevice *one = kz.device->devices;
        kz.device->devices = one->next;
        free(one);
    }
    while (kz.device->links) {
        Link *one = kz.device->links;
        kz.device->links = one->next;
        free(one);
    }
}

const KzModule kz_device_module = {KZ_STATE(device), .free = free_devices, .filter_begins = offer_devices};
