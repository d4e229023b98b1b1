/* Files of a program: requests of its process, through all filters. */
#include "user/file.h"

#include "core/client.h"
#include "core/op.h"
#include "lib/letters.h"
#include "filesystem/fileobject.h"
#include "filesystem/create.h"
#include "filesystem/sharing.h"
#include "filesystem/stream.h"
#include "manager/below.h"
#include "manager/opaque.h"
#include "manager/disposition.h"
#include "manager/reparse.h"
#include "kit/device.h"
#include "user/completion.h"
#include "user/error.h"
#include "user/later.h"
#include "user/object.h"
#include "user/path.h"
#include "user/program.h"

static const KzOwn requests = {.is_waited_for = true, .is_user = true};

static KzAnswer ask(KzFile *file, KazdrinEvent asked, const void *bytes, size_t length)
{
    asked.handle = file->handle;
    if (!kz_is_granted(file, &asked, NULL))
        return (KzAnswer){.reply.status = KZS_ACCESS_DENIED, .is_refused = true};
    return kz_below(&requests, file, asked, bytes, length);
}

/* 0, or the error of the answer. */
static uint32_t error_of(KzAnswer answer)
{
    NTSTATUS status = kz_status_of(answer);
    return NT_SUCCESS(status) ? 0 : kz_win32_of(status);
}

void kz_close_opened(KzFile *file)
{
    ask(file, (KazdrinEvent){.event = KZE_CLEANUP}, "", 0);
    file->is_close_due = true;
    kz_let_go_file(file);
    kz_close_if_due(file);
}

/* ---- What CreateFile asks the system for. */
enum { CREATE_NEW = 1, CREATE_ALWAYS, OPEN_EXISTING, OPEN_ALWAYS, TRUNCATE_EXISTING };

typedef struct {
    uint32_t access, share, disposition, flags;
    PKTRANSACTION transaction;
} Asked;

static ULONG disposition_of(uint32_t disposition)
{
    static const ULONG all[] = {FILE_CREATE, FILE_OVERWRITE_IF, FILE_OPEN, FILE_OPEN_IF, FILE_OVERWRITE};
    return all[disposition - CREATE_NEW];
}

static ULONG options_of(uint32_t flags)
{
    static const struct {
        uint32_t flag;
        ULONG option;
    } all[] = {{0x80000000, FILE_WRITE_THROUGH},
               {0x20000000, FILE_NO_INTERMEDIATE_BUFFERING},
               {0x10000000, FILE_RANDOM_ACCESS},
               {0x08000000, FILE_SEQUENTIAL_ONLY},
               {0x04000000, FILE_DELETE_ON_CLOSE},
               {0x02000000, FILE_OPEN_FOR_BACKUP_INTENT},
               {0x00200000, FILE_OPEN_REPARSE_POINT},
               {0x00100000, FILE_OPEN_NO_RECALL}};
    ULONG options = flags & 0x40000000 ? 0 : FILE_SYNCHRONOUS_IO_NONALERT; /* FILE_FLAG_OVERLAPPED */
    for (size_t at = 0; at < sizeof all / sizeof all[0]; at++)
        if (flags & all[at].flag)
            options |= all[at].option;
    return options & FILE_OPEN_FOR_BACKUP_INTENT ? options : options | FILE_NON_DIRECTORY_FILE;
}

/* Every handle may be waited for, and its attributes be read. */
static KzCreate create_of(const Asked *asked)
{
    ULONG options = options_of(asked->flags);
    ACCESS_MASK access = asked->access | SYNCHRONIZE | FILE_READ_ATTRIBUTES | (options & FILE_DELETE_ON_CLOSE ? DELETE : 0);
    return (KzCreate){.access = access,
                      .options = disposition_of(asked->disposition) << 24 | options,
                      .attributes = asked->flags & FILE_ATTRIBUTE_VALID_FLAGS & ~(uint32_t)FILE_ATTRIBUTE_DIRECTORY,
                      .share = asked->share,
                      .transaction = asked->transaction};
}

/* `//./C:` is the volume itself. */
static PFLT_VOLUME volume_by_letter(const char *name)
{
    size_t at = strncmp(name, "//./", 4) == 0 && name[4] && strcmp(name + 5, ":") == 0 ? (size_t)((name[4] & ~32) - 'C') : kz.volumes_count;
    return at < kz.volumes_count ? kz.volumes[at] : NULL;
}

/* A path below a volume's letter, or below its device. */
static PFLT_VOLUME split(const char *name, const char **path)
{
    for (size_t at = 0; at < kz.volumes_count; at++) {
        char device[64], letter[] = {(char)('C' + at), ':', '/', 0};
        int length = snprintf(device, sizeof device, "//?/GLOBALROOT/Device/%s/", kz.volumes[at]->name);
        bool is_device = KzStrnicmp(name, device, (size_t)length) == 0;
        bool is_whole = strncmp(name, "//?/", 4) == 0 || strncmp(name, "/?" "?/", 4) == 0;
        const char *begin = is_whole && !is_device ? name + 4 : name;
        *path = is_device ? name + length : begin + 3;
        if (is_device || KzStrnicmp(begin, letter, 3) == 0)
            return kz.volumes[at];
    }
    return NULL;
}

typedef struct {
    const KzCreate *create;
    KzFile *file;
} Opening;

static KzAnswer begin(void *given, KazdrinEvent asked, const char *path)
{
    Opening *opening = given;
    PFLT_VOLUME volume = kz.volumes[asked.volume];
    KzFile *file = kz_new_file(volume, path, kz_opens_directory(opening->create, volume, path));
    const KzOwn own = {.is_waited_for = true, .is_user = true, .create = opening->create};
    file->users++;
    file->is_own = true;
    if (opening->create->is_volume)
        kz_be_volume(file);
    KzAnswer answer = kz_below(&own, file, asked, path, strlen(path));
    opening->file = answer.reply.status == KZS_OK && !answer.reply.held ? file : NULL;
    if (!opening->file)
        kz_let_go_file(file);
    return answer;
}

static NTSTATUS open_at(PFLT_VOLUME volume, const char *path, const KzCreate *asked, KzFile **file)
{
    KzCreate create = *asked;
    NTSTATUS wrong = kz_check_create(asked);
    if (!NT_SUCCESS(wrong))
        return wrong;
    create.access = kz_map_access(asked->access);
    Opening opening = {&create, NULL};
    KazdrinEvent event = {.event = KZE_CREATE, .volume = volume->id, .mode = kz_mode_of(create.options >> 24)};
    NTSTATUS status = kz_status_of(kz_follow(begin(&opening, event, path), &opening, begin));
    *file = opening.file;
    return status;
}

NTSTATUS kz_open_as(const char *name, const KzCreate *create, KzFile **file)
{
    const char *path;
    *file = NULL;
    PFLT_VOLUME volume = volume_by_letter(name);
    if (volume) {
        KzCreate itself = *create;
        itself.is_volume = true;
        itself.options &= ~(ULONG)FILE_NON_DIRECTORY_FILE;
        return open_at(volume, "", &itself, file);
    }
    volume = split(name, &path);
    if (!volume || strlen(path) >= KZ_PATH)
        return volume ? STATUS_OBJECT_NAME_INVALID : STATUS_OBJECT_PATH_NOT_FOUND;
    return open_at(volume, path, create, file);
}

uint32_t kz_open_path(const char *name, const KzCreate *create, KzFile **file)
{
    NTSTATUS status = kz_open_as(name, create, file);
    return NT_SUCCESS(status) ? 0 : kz_win32_of(status);
}

NTSTATUS kz_ask_opened(KzFile *file, const KzAsked *asked, KzAnswer *answer)
{
    const KzOwn own = {.is_waited_for = true, .is_user = true, .opaque = asked};
    *answer = (KzAnswer){.reply.status = KZS_ACCESS_DENIED, .is_refused = true};
    if (kz_is_granted(file, &(KazdrinEvent){.event = KZE_OTHER}, asked))
        *answer = kz_below(&own, file, kz_opaque_event(asked, (KazdrinEvent){.event = KZE_OTHER, .handle = file->handle}), "", 0);
    return kz_status_of(*answer);
}

static KzFile *open_file(const char *name, const Asked *asked)
{
    KzFile *file = NULL;
    bool is_right = asked->disposition >= CREATE_NEW && asked->disposition <= TRUNCATE_EXISTING;
    const KzCreate create = is_right ? create_of(asked) : (KzCreate){0};
    uint32_t error = is_right ? kz_open_path(name, &create, &file) : 87;
    if (error) {
        kz_failed(error == 183 ? 80 : error); /* ERROR_FILE_EXISTS */
        return NULL;
    }
    bool was_there = file->created == FILE_OPENED || file->created == FILE_OVERWRITTEN;
    if (asked->disposition == CREATE_ALWAYS || asked->disposition == OPEN_ALWAYS)
        kz_failed(was_there ? 183 : 0); /* ERROR_ALREADY_EXISTS, though it opened the file */
    return file;
}

static KzObject *open_device(const char *name)
{
    KzDeviceFile opened;
    NTSTATUS status = kz_open_device(name, &opened);
    if (!NT_SUCCESS(status)) {
        kz_failed(kz_win32_of(status));
        return NULL;
    }
    KzObject *object = kz_new_object(KZU_DEVICE);
    object->device = opened;
    return object;
}

static KzObject *open_any(const char *name, const Asked *asked)
{
    const char *path;
    if (strncmp(name, "//", 2) == 0 && !split(name, &path) && !volume_by_letter(name))
        return open_device(name);
    KzFile *file = open_file(name, asked);
    if (!file)
        return NULL;
    KzObject *object = kz_new_object(KZU_FILE);
    object->file = file;
    return object;
}

static void *create(char *path, const Asked *asked)
{
    void *handle = (void *)(intptr_t)-1;
    {
        KZ_CALL_OF("CreateFile");
        kz_plain_path(path);
        KzObject *object = open_any(path, asked);
        handle = object ? object : handle;
    }
    kz_go_on_or_end();
    return handle;
}

void *CreateFileA(const char *name, uint32_t access, uint32_t share, const void *attributes, uint32_t disposition, uint32_t flags, void *template);
void *CreateFileA(const char *name, uint32_t access, uint32_t share, const void *attributes, uint32_t disposition, uint32_t flags, void *template)
{
    (void)attributes, (void)template;
    char path[KZ_PROGRAM_PATH];
    kz_letters_of(path, sizeof path, name);
    return create(path, &(Asked){access, share, disposition, flags, NULL});
}

void *CreateFileW(const WCHAR *name, uint32_t access, uint32_t share, const void *attributes, uint32_t disposition, uint32_t flags, void *template);
void *CreateFileW(const WCHAR *name, uint32_t access, uint32_t share, const void *attributes, uint32_t disposition, uint32_t flags, void *template)
{
    (void)attributes, (void)template;
    char path[KZ_PROGRAM_PATH];
    kz_letters_of_wide(path, sizeof path, name);
    return create(path, &(Asked){access, share, disposition, flags, NULL});
}

static void *create_in(char *path, Asked asked, const void *handle)
{
    const KzObject *object = kz_object(handle, KZU_TRANSACTION);
    asked.transaction = object ? object->transaction : NULL;
    return object ? create(path, &asked) : (void *)(intptr_t)-1;
}

void *CreateFileTransactedA(const char *name, uint32_t access, uint32_t share, const void *attributes, uint32_t disposition, uint32_t flags, void *template, void *transaction, const void *version, void *more);
void *CreateFileTransactedA(const char *name, uint32_t access, uint32_t share, const void *attributes, uint32_t disposition, uint32_t flags, void *template, void *transaction, const void *version, void *more)
{
    (void)attributes, (void)template, (void)version, (void)more;
    char path[KZ_PROGRAM_PATH];
    kz_letters_of(path, sizeof path, name);
    return create_in(path, (Asked){access, share, disposition, flags, NULL}, transaction);
}

void *CreateFileTransactedW(const WCHAR *name, uint32_t access, uint32_t share, const void *attributes, uint32_t disposition, uint32_t flags, void *template, void *transaction, const void *version, void *more);
void *CreateFileTransactedW(const WCHAR *name, uint32_t access, uint32_t share, const void *attributes, uint32_t disposition, uint32_t flags, void *template, void *transaction, const void *version, void *more)
{
    (void)attributes, (void)template, (void)version, (void)more;
    char path[KZ_PROGRAM_PATH];
    kz_letters_of_wide(path, sizeof path, name);
    return create_in(path, (Asked){access, share, disposition, flags, NULL}, transaction);
}

/* ---- Reading and writing. */
typedef struct {
    KzObject *object;
    uint64_t offset;
    uint8_t *buffer;
    uint32_t length, done;
    bool is_write;
} Transfer;

static NTSTATUS transfer_part(Transfer *one, uint32_t size)
{
    uint64_t offset = one->offset == KZ_AT_END ? KZ_AT_END : one->offset + one->done;
    KazdrinEvent asked = {.event = one->is_write ? KZE_WRITE : KZE_READ, .offset = offset, .len = one->is_write ? 0 : size};
    KzAnswer answer = ask(one->object->file, asked, one->is_write ? one->buffer + one->done : (uint8_t *)"", one->is_write ? size : 0);
    NTSTATUS status = kz_status_of(answer);
    if (!NT_SUCCESS(status))
        return status;
    uint32_t moved = one->is_write || answer.length > size ? size : (uint32_t)answer.length;
    if (!one->is_write)
        memcpy(one->buffer + one->done, kz_me->room, moved);
    one->done += moved;
    return status;
}

static NTSTATUS transfer(Transfer *one)
{
    NTSTATUS status;
    uint32_t before;
    kz_me->has_pended = false;
    do {
        uint32_t rest = one->length - one->done;
        before = one->done;
        status = transfer_part(one, rest < KZ_BYTES ? rest : KZ_BYTES);
    } while (NT_SUCCESS(status) && one->done > before && one->done < one->length);
    return status == STATUS_END_OF_FILE && one->done ? STATUS_SUCCESS : status; /* a part of it was there */
}

static NTSTATUS transfer_of_device(Transfer *one)
{
    KzDeviceAsk asked = {.major = one->is_write ? IRP_MJ_WRITE : IRP_MJ_READ, .offset = one->offset};
    ULONG_PTR information = 0;
    if (one->is_write)
        asked.in = one->buffer, asked.in_length = one->length;
    else
        asked.out = one->buffer, asked.out_length = one->length;
    NTSTATUS status = kz_ask_device(&one->object->device, &asked, &information);
    one->done = (uint32_t)information;
    return status;
}

/* Of a file, or of a volume: codes of file systems are theirs, others a device's. */
static uint32_t control_file(KzObject *object, uint32_t code, const KzDeviceAsk *said, KzAnswerTo to)
{
    const KzAsked asked = {.major = code >> 16 == FILE_DEVICE_FILE_SYSTEM ? IRP_MJ_FILE_SYSTEM_CONTROL : IRP_MJ_DEVICE_CONTROL, .code = code, .input = said->in, .input_size = said->in_length, .room = to.room,
                           .irp_flags = code & 3 ? 0 : IRP_BUFFERED_IO};
    return kz_ask_later(object, &asked, to, "DeviceIoControl");
}

int DeviceIoControl(void *handle, uint32_t code, void *in, uint32_t in_length, void *out, uint32_t out_length, uint32_t *done, KzOverlapped *overlapped);
int DeviceIoControl(void *handle, uint32_t code, void *in, uint32_t in_length, void *out, uint32_t out_length, uint32_t *done, KzOverlapped *overlapped)
{
    int is_right = 0;
    {
        KZ_CALL();
        KzObject *object = kz_any_object(handle);
        if (object && object->kind == KZU_FILE) {
            uint32_t error = control_file(object, code, &(KzDeviceAsk){.in = in, .in_length = in_length}, (KzAnswerTo){overlapped, out, out_length, done});
            is_right = error ? kz_failed(error) : 1;
        } else if (object && object->kind != KZU_DEVICE) {
            kz_failed(1); /* ERROR_INVALID_FUNCTION */
        } else if (object) {
            ULONG_PTR information = 0;
            if (overlapped)
                kz_begin_overlapped(object, overlapped);
            NTSTATUS status = kz_ask_device(&object->device, &(KzDeviceAsk){IRP_MJ_DEVICE_CONTROL, code, in, out, in_length, out_length, 0}, &information);
            if (done)
                *done = (uint32_t)information;
            if (overlapped)
                kz_end_overlapped(object, overlapped, (uint32_t)information, status);
            is_right = NT_SUCCESS(status) ? 1 : kz_failed(kz_win32_of(status));
        }
    }
    kz_go_on_or_end();
    return is_right;
}

static int move(void *handle, void *buffer, uint32_t length, uint32_t *done, KzOverlapped *overlapped, bool is_write)
{
    int is_right = 0;
    {
        KZ_CALL_OF(is_write ? "WriteFile" : "ReadFile");
        KzObject *object = kz_any_object(handle);
        if (object && object->kind != KZU_FILE && object->kind != KZU_DEVICE) {
            kz_failed(KZ_ERROR_INVALID_HANDLE);
        } else if (object) {
            Transfer one = {object, overlapped ? overlapped->offset : object->offset, buffer, length, 0, is_write};
            if (is_write && object->kind == KZU_FILE)
                one.offset = kz_offset_by(object->file, (LONGLONG)one.offset);
            if (overlapped)
                kz_begin_overlapped(object, overlapped);
            NTSTATUS status = object->kind == KZU_FILE ? transfer(&one) : transfer_of_device(&one);
            bool is_at_end = status == STATUS_END_OF_FILE && !is_write && !overlapped; /* then no byte was read, and that is no error */
            object->offset = is_write && one.offset == KZ_AT_END ? kz_size_of(object->file) : one.offset + one.done;
            if (done)
                *done = one.done;
            if (overlapped)
                kz_end_overlapped(object, overlapped, one.done, status);
            is_right = NT_SUCCESS(status) || is_at_end ? 1 : kz_failed(kz_win32_of(status));
        }
    }
    kz_go_on_or_end();
    return is_right;
}

int ReadFile(void *handle, void *buffer, uint32_t length, uint32_t *done, KzOverlapped *overlapped);
int ReadFile(void *handle, void *buffer, uint32_t length, uint32_t *done, KzOverlapped *overlapped)
{
    return move(handle, buffer, length, done, overlapped, false);
}

int WriteFile(void *handle, void *buffer, uint32_t length, uint32_t *done, KzOverlapped *overlapped);
int WriteFile(void *handle, void *buffer, uint32_t length, uint32_t *done, KzOverlapped *overlapped)
{
    return move(handle, buffer, length, done, overlapped, true);
}

static int simple(void *handle, KazdrinEvent asked, uint64_t *information, const char *call)
{
    int is_right = 0;
    {
        KZ_CALL_OF(call);
        KzObject *object = kz_object(handle, KZU_FILE);
        if (object) {
            KzAnswer answer = ask(object->file, asked, "", 0);
            uint32_t error = error_of(answer);
            if (information)
                *information = answer.reply.information;
            is_right = error ? kz_failed(error) : 1;
        }
    }
    kz_go_on_or_end();
    return is_right;
}

int FlushFileBuffers(void *handle);
int FlushFileBuffers(void *handle)
{
    return simple(handle, (KazdrinEvent){.event = KZE_FLUSH}, NULL, __func__);
}

int GetFileSizeEx(void *handle, uint64_t *size);
int GetFileSizeEx(void *handle, uint64_t *size)
{
    return simple(handle, (KazdrinEvent){.event = KZE_QUERY_SIZE}, size, __func__);
}

uint32_t GetFileSize(void *handle, uint32_t *high);
uint32_t GetFileSize(void *handle, uint32_t *high)
{
    uint64_t size = 0;
    if (!GetFileSizeEx(handle, &size))
        return UINT32_MAX;
    if (high)
        *high = (uint32_t)(size >> 32);
    return (uint32_t)size;
}

int SetFilePointerEx(void *handle, int64_t distance, uint64_t *now, uint32_t method);
int SetFilePointerEx(void *handle, int64_t distance, uint64_t *now, uint32_t method)
{
    uint64_t begin = 0;
    if (method == 2 && !GetFileSizeEx(handle, &begin))
        return 0;
    KZ_CALL();
    KzObject *object = kz_object(handle, KZU_FILE);
    if (!object)
        return 0;
    int64_t place = (int64_t)(method == 1 ? object->offset : begin) + distance;
    if (place < 0)
        return kz_failed(131); /* ERROR_NEGATIVE_SEEK */
    object->offset = (uint64_t)place;
    if (now)
        *now = object->offset;
    return 1;
}

uint32_t SetFilePointer(void *handle, int32_t distance, int32_t *high, uint32_t method);
uint32_t SetFilePointer(void *handle, int32_t distance, int32_t *high, uint32_t method)
{
    uint64_t now = 0;
    int64_t whole = high ? ((int64_t)*high << 32 | (uint32_t)distance) : distance;
    if (!SetFilePointerEx(handle, whole, &now, method))
        return UINT32_MAX;
    if (high)
        *high = (int32_t)(now >> 32);
    return (uint32_t)now;
}

int SetEndOfFile(void *handle);
int SetEndOfFile(void *handle)
{
    uint64_t size;
    {
        KZ_INSIDE();
        KzObject *object = kz_object(handle, KZU_FILE);
        size = object ? object->offset : 0;
    }
    return simple(handle, (KazdrinEvent){.event = KZE_SET_SIZE, .offset = size}, NULL, __func__);
}
