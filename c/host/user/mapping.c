/* Sections of files, and their views, as a program has them. The pages of a view are read as it is made, where Windows reads each as it is touched first. */
#include "user/mapping.h"

#include "cache/paging.h"
#include "core/client.h"
#include "core/op.h"
#include "core/told.h"
#include "filesystem/fileobject.h"
#include "filesystem/stream.h"
#include "kit/section.h"
#include "user/error.h"
#include "user/file.h"
#include "user/object.h"

enum { WRITES = 2, COPIES = 1 };
enum { ERROR_ACCESS = 5, ERROR_NONE = 50, ERROR_PARAMETER = 87, ERROR_ADDRESS = 487, ERROR_EMPTY = 1006 };
#define SECTION_FLAGS 0xff000000u

/* The file system acquires the file meanwhile, which a filter may refuse. */
static NTSTATUS ask_section(KzFile *file, UCHAR major, ULONG protection)
{
    KzAnswer answered;
    const KzAsked asked = {.major = major, .code = protection, .data_flags = FLTFL_CALLBACK_DATA_FS_FILTER_OPERATION};
    return kz_ask_opened(file, &asked, &answered);
}

/* A section that is larger than its file makes that larger. */
static NTSTATUS reach(KzFile *file, uint64_t size)
{
    KzAnswer answered;
    const FILE_END_OF_FILE_INFORMATION end = {.EndOfFile.QuadPart = (LONGLONG)size};
    const KzAsked asked = {.major = IRP_MJ_SET_INFORMATION, .code = FileEndOfFileInformation, .input = &end, .input_size = sizeof end, .irp_flags = IRP_BUFFERED_IO};
    return size > file->name->stream->size ? kz_ask_opened(file, &asked, &answered) : STATUS_SUCCESS;
}

static KzObject *new_section(KzFile *file, uint64_t size, ULONG protection)
{
    KzArea *area = kz_open_area(file, size, false);
    if (!area)
        return NULL;
    KzObject *made = kz_new_object(KZU_SECTION);
    made->area = area;
    made->may_write = protection == PAGE_READWRITE || protection == PAGE_EXECUTE_READWRITE;
    return made;
}

void kz_close_section(KzObject *section)
{
    KzCache *cache = section->area->cache;
    kz_close_area(section->area);
    kz_let_cache_go(cache);
}

/* Why there is no section of it; 0 if there is one. */
static uint32_t refuse(const KzFile *file, ULONG protection, uint64_t size)
{
    bool writes = protection == PAGE_READWRITE || protection == PAGE_EXECUTE_READWRITE;
    if (!file->name || file->is_directory || file->is_volume)
        return ERROR_ACCESS;
    if (!(file->access & FILE_READ_DATA) || (writes && !(file->access & FILE_WRITE_DATA)))
        return ERROR_ACCESS;
    return !size ? ERROR_EMPTY : size > KZ_LARGEST ? ERROR_PARAMETER : 0;
}

static KzObject *make(KzFile *file, ULONG protection, uint64_t size)
{
    uint64_t asked = size ? size : file->name ? file->name->stream->size : 0;
    uint32_t error = refuse(file, protection, asked);
    KzObject *made = NULL;
    if (error) {
        kz_failed(error);
        return NULL;
    }
    NTSTATUS status = ask_section(file, IRP_MJ_ACQUIRE_FOR_SECTION_SYNCHRONIZATION, protection);
    if (NT_SUCCESS(status)) {
        status = reach(file, asked);
        made = NT_SUCCESS(status) ? new_section(file, asked, protection) : NULL;
        ask_section(file, IRP_MJ_RELEASE_FOR_SECTION_SYNCHRONIZATION, protection);
    }
    if (!made)
        kz_failed(kz_win32_of(NT_SUCCESS(status) ? STATUS_INSUFFICIENT_RESOURCES : status));
    return made;
}

static void *make_section(void *handle, uint32_t protection, uint32_t high, uint32_t low, bool has_name)
{
    KzObject *made = NULL;
    {
        KZ_CALL_OF("CreateFileMapping");
        const KzObject *file = kz_object(handle, KZU_FILE);
        bool is_known = !has_name && !(protection & SECTION_FLAGS & ~(uint32_t)SEC_COMMIT);
        if (!is_known) {
            kz_tell(KZM_SECTION, "CreateFileMapping", "of an image, with a name or with flags but SEC_COMMIT: it answers ERROR_NOT_SUPPORTED");
            kz_failed(ERROR_NONE);
        } else if (file)
            made = make(file->file, protection & ~SECTION_FLAGS, (uint64_t)high << 32 | low);
    }
    kz_go_on_or_end();
    return made;
}

void *CreateFileMappingA(void *file, const void *attributes, uint32_t protection, uint32_t high, uint32_t low, const char *name);
void *CreateFileMappingA(void *file, const void *attributes, uint32_t protection, uint32_t high, uint32_t low, const char *name)
{
    (void)attributes;
    return make_section(file, protection, high, low, name != NULL);
}

void *CreateFileMappingW(void *file, const void *attributes, uint32_t protection, uint32_t high, uint32_t low, const WCHAR *name);
void *CreateFileMappingW(void *file, const void *attributes, uint32_t protection, uint32_t high, uint32_t low, const WCHAR *name)
{
    (void)attributes;
    return make_section(file, protection, high, low, name != NULL);
}

/* ---- Views. */
static void *map(const KzArea *area, bool may_write, uint32_t access, uint64_t from, uint64_t size)
{
    KzMapped asked = {.is_written = access & WRITES && access != COPIES, .is_copy = access == COPIES, .owner = kz_user()->process}, *made = NULL;
    NTSTATUS status = asked.is_written && !may_write ? STATUS_ACCESS_DENIED : kz_map_area(area, from, size, &asked, &made);
    if (!NT_SUCCESS(status))
        kz_failed(kz_win32_of(status)); /* in Windows whoever touches it meets STATUS_IN_PAGE_ERROR */
    return made ? made->bytes : NULL;
}

/* Also of a section whose handle a filter opened for the program, to be read. */
void *MapViewOfFile(void *section, uint32_t access, uint32_t high, uint32_t low, size_t size);
void *MapViewOfFile(void *section, uint32_t access, uint32_t high, uint32_t low, size_t size)
{
    void *bytes = NULL;
    {
        KZ_CALL();
        const KzArea *area = kz_area_of(section);
        const KzObject *own = area ? NULL : kz_object(section, KZU_SECTION);
        if (area || own)
            bytes = map(own ? own->area : area, own && own->may_write, access, (uint64_t)high << 32 | low, size);
    }
    kz_go_on_or_end();
    return bytes;
}

int UnmapViewOfFile(const void *address);
int UnmapViewOfFile(const void *address)
{
    KZ_CALL();
    KzCache *cache;
    KzMapped *view = kz_view_at(address, &cache);
    if (view) {
        kz_unmap_view(cache, view);
        kz_let_cache_go(cache);
    } else {
        kz_failed(ERROR_ADDRESS);
    }
    return view != NULL;
}

int FlushViewOfFile(const void *address, size_t size);
int FlushViewOfFile(const void *address, size_t size)
{
    NTSTATUS status = STATUS_INVALID_PARAMETER;
    {
        KZ_CALL();
        KzCache *cache;
        const KzMapped *view = kz_view_at(address, &cache);
        uint64_t from = view ? view->first * KZ_PAGE + (uint64_t)((const uint8_t *)address - view->bytes) : 0;
        if (view)
            status = kz_flush_cache(cache, from, size ? size : view->first * KZ_PAGE + view->count * KZ_PAGE - from);
        if (!NT_SUCCESS(status))
            kz_failed(kz_win32_of(status));
    }
    kz_go_on_or_end();
    return NT_SUCCESS(status);
}
