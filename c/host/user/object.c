/* Handles of a program: each is an object of its process. */
#include "user/object.h"
#include "user/transaction.h"

#include "core/client.h"
#include "core/memory.h"
#include "kit/fltcreate.h"
#include "kit/device.h"
#include "kit/port.h"
#include "user/directory.h"
#include "user/file.h"
#include "user/manage.h"
#include "user/mapping.h"
#include "user/message.h"
#include "user/program.h"

#include <stdlib.h>

int kz_failed(uint32_t error)
{
    kz_user()->error = error;
    return 0;
}

KzObject *kz_new_object(KzObjectKind kind)
{
    KzProcess *process = kz_user()->process;
    KzObject *made = kz_memory(sizeof *made);
    *made = (KzObject){.next = process->objects, .kind = kind, .process = process};
    return process->objects = made;
}

KzObject *kz_open_object(const KzObject *object)
{
    for (KzProcess *process = kz_processes(); process; process = process->next)
        for (KzObject *one = process->objects; one; one = one->next)
            if (one == object)
                return one;
    return NULL;
}

KzObject *kz_any_object(const void *handle)
{
    KzObject *one = kz_user()->process->objects;
    while (one && one != handle)
        one = one->next;
    if (!one)
        kz_failed(KZ_ERROR_INVALID_HANDLE);
    return one;
}

KzObject *kz_object(const void *handle, KzObjectKind kind)
{
    KzObject *one = kz_any_object(handle);
    if (one && one->kind == kind)
        return one;
    kz_failed(KZ_ERROR_INVALID_HANDLE);
    return NULL;
}

static void free_object(KzObject *object)
{
    while (object->packets) {
        KzPacket *one = object->packets;
        object->packets = one->next;
        free(one);
    }
    for (KzObject *one = object->process->objects; one; one = one->next)
        one->completion = one->completion == object ? NULL : one->completion;
    free(object);
}

/* Who waits for it waits on, as in Windows. */
void kz_close_object(KzObject *object)
{
    KzObject **at = &object->process->objects;
    while (*at && *at != object)
        at = &(*at)->next;
    if (!*at)
        return;
    *at = object->next;
    kz.changes++;
    if (object->kind == KZU_PORT) {
        kz_abort_messages(object, STATUS_CANCELLED);
        kz_disconnect_port(object->port);
    } else if (object->kind == KZU_FILE) {
        kz_close_opened(object->file);
    } else if (object->kind == KZU_DEVICE) {
        kz_close_device(&object->device);
    } else if (object->kind == KZU_FIND) {
        kz_free_found(object);
    } else if (object->kind == KZU_SEARCH) {
        kz_free_search(object);
    } else if (object->kind == KZU_KEY) {
        ZwClose(object->system);
    } else if (object->kind == KZU_SECTION) {
        kz_close_section(object);
    } else if (object->kind == KZU_TRANSACTION) {
        kz_leave_transaction(object->transaction);
    } else if (object->kind == KZU_THREAD) {
        object->owner->object = NULL;
    }
    free_object(object);
}

int CloseHandle(void *handle);
int CloseHandle(void *handle)
{
    int is_closed = 0;
    {
        KZ_CALL();
        KzObject *object = kz_any_object(handle);
        if (object)
            kz_close_object(object);
        is_closed = object || kz_close_handle(handle); /* what a filter opened for the program */
    }
    kz_go_on_or_end();
    return is_closed;
}

uint32_t GetLastError(void);
uint32_t GetLastError(void)
{
    return kz_user()->error;
}

void SetLastError(uint32_t error);
void SetLastError(uint32_t error)
{
    kz_user()->error = error;
}
