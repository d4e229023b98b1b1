/* Notices of a directory for a program: ReadDirectoryChangesW, which completes later, or is waited for. */
#include "core/client.h"
#include "core/memory.h"
#include "core/op.h"
#include "manager/below.h"
#include "manager/opaque.h"
#include "user/completion.h"
#include "user/error.h"
#include "user/file.h"
#include "user/object.h"
#include "user/program.h"

#include <stdlib.h>

/* Until it is over; the handle may be closed meanwhile. */
typedef struct {
    const KzObject *object;
    void *room;
    KzOverlapped *overlapped, own;
    bool is_waited_for, is_over;
} Watch;

static void end(Watch *watch, NTSTATUS status, uint64_t bytes)
{
    KzObject *object = kz_open_object(watch->object);
    if (object)
        kz_complete(object, watch->overlapped, (uint32_t)bytes, status);
    watch->is_over = true;
    kz.changes++;
    if (!watch->is_waited_for)
        free(watch);
}

static void completed(void *given, NTSTATUS status, uint64_t information, const uint8_t *bytes, size_t length)
{
    Watch *watch = given;
    if (NT_SUCCESS(status) && length)
        memcpy(watch->room, bytes, length);
    end(watch, status, NT_SUCCESS(status) ? information : 0);
}

static bool is_over(void *watch)
{
    return ((Watch *)watch)->is_over;
}

static Watch *begin(KzObject *object, void *room, uint32_t size, bool is_tree, uint32_t filter, KzOverlapped *overlapped)
{
    Watch *watch = kz_memory(sizeof *watch);
    *watch = (Watch){.object = object, .room = room, .is_waited_for = !overlapped};
    watch->overlapped = overlapped ? overlapped : &watch->own;
    kz_begin_overlapped(object, watch->overlapped);
    const KzAsked asked = {.major = IRP_MJ_DIRECTORY_CONTROL, .minor = IRP_MN_NOTIFY_CHANGE_DIRECTORY, .flags = is_tree ? SL_WATCH_TREE : 0, .code = filter, .room = size, .waits = true};
    const KzOwn own = {.is_user = true, .opaque = &asked, .done = completed, .given = watch};
    KzAnswer answer = kz_below(&own, object->file, kz_opaque_event(&asked, (KazdrinEvent){.event = KZE_OTHER, .handle = object->file->handle}), "", 0);
    if (!answer.reply.held)
        completed(watch, kz_status_of(answer), answer.reply.information, kz_me->room, answer.length);
    return watch;
}

int ReadDirectoryChangesW(void *handle, void *room, uint32_t size, int is_tree, uint32_t filter, uint32_t *returned, KzOverlapped *overlapped, void *routine);
int ReadDirectoryChangesW(void *handle, void *room, uint32_t size, int is_tree, uint32_t filter, uint32_t *returned, KzOverlapped *overlapped, void *routine)
{
    int is_right = 0;
    (void)routine;
    {
        KZ_CALL();
        KzObject *object = kz_object(handle, KZU_FILE);
        Watch *watch = object ? begin(object, room, size, is_tree, filter, overlapped) : NULL;
        is_right = object != NULL;
        if (watch && !overlapped) {
            is_right = kz_user_waits(is_over, watch, UINT32_MAX, "ReadDirectoryChangesW") && NT_SUCCESS((NTSTATUS)watch->own.status);
            if (returned)
                *returned = (uint32_t)watch->own.bytes;
            if (!is_right)
                kz_failed(kz_win32_of((NTSTATUS)watch->own.status));
            if (watch->is_over)
                free(watch);
        }
    }
    kz_go_on_or_end();
    return is_right;
}
