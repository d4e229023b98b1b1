/* Sections of a file for a scan: their views are of the stream's pages, which are read from the top of the stack as they are mapped. Whoever is about to cut the file has the filter told first. */
#include "kit/section.h"

#include "core/client.h"
#include "core/major.h"
#include "core/memory.h"
#include "core/module.h"
#include "core/op.h"
#include "core/place.h"
#include "core/state.h"
#include "core/told.h"
#include "filesystem/fileobject.h"
#include "filesystem/handle.h"
#include "manager/below.h"
#include "manager/context.h"
#include "manager/hand.h"
#include "manager/instance.h"
#include "manager/reference.h"
#include "kit/information.h"

#include <stdlib.h>

typedef struct Section {
    struct Section *next;
    PFLT_CONTEXT context; /* NULL once it was closed */
    PFLT_FILTER filter;
    PFLT_INSTANCE instance;
    KzArea *area;
} Section;

struct KzSectionState {
    Section *first;
};

NTSTATUS FltRegisterForDataScan(PFLT_INSTANCE Instance)
{
    KZ_CALL();
    return kz_may_use(__func__, Instance) ? STATUS_SUCCESS : STATUS_INVALID_PARAMETER;
}

static NTSTATUS open_area(PFLT_INSTANCE instance, PFILE_OBJECT object, KzArea **made, const char *call)
{
    FILE_STANDARD_INFORMATION standard;
    ULONG used;
    KzFile *file = kz_file_with(object);
    if (!file || !file->name)
        return STATUS_INVALID_FILE_FOR_SECTION;
    if (kz_refuses(KZ_CHOICE_POOL, call))
        return STATUS_INSUFFICIENT_RESOURCES;
    NTSTATUS status = kz_query_below(instance, object, &standard, sizeof standard, FileStandardInformation, &used, call);
    if (!NT_SUCCESS(status))
        return status;
    if (standard.EndOfFile.QuadPart == 0)
        return STATUS_END_OF_FILE;
    if (standard.EndOfFile.QuadPart > (LONGLONG)KZ_LARGEST)
        return STATUS_INSUFFICIENT_RESOURCES;
    *made = kz_open_area(file, (uint64_t)standard.EndOfFile.QuadPart, true);
    return *made ? STATUS_SUCCESS : STATUS_INSUFFICIENT_RESOURCES;
}

NTSTATUS FltCreateSectionForDataScan(PFLT_INSTANCE Instance, PFILE_OBJECT FileObject, PFLT_CONTEXT SectionContext, ACCESS_MASK DesiredAccess,
                                     POBJECT_ATTRIBUTES ObjectAttributes, PLARGE_INTEGER MaximumSize, ULONG SectionPageProtection, ULONG AllocationAttributes,
                                     ULONG Flags, PHANDLE SectionHandle, PVOID *SectionObject, PLARGE_INTEGER SectionFileSize)
{
    KZ_CALL();
    (void)DesiredAccess, (void)MaximumSize, (void)SectionPageProtection, (void)AllocationAttributes, (void)Flags;
    KzArea *area;
    *SectionHandle = NULL;
    *SectionObject = NULL;
    NTSTATUS status = open_area(Instance, FileObject, &area, __func__);
    if (!NT_SUCCESS(status))
        return status;
    Section *made = kz_memory(sizeof *made);
    *made = (Section){.next = kz.section->first, .context = SectionContext, .filter = kz_me->place.filter, .instance = Instance, .area = area};
    kz.section->first = made;
    FltReferenceContext(SectionContext); /* the section has it, until it is closed */
    *SectionHandle = kz_open_handle(made, "a section", ObjectAttributes ? ObjectAttributes->Attributes : 0);
    *SectionObject = made;
    kz_take_object(made, false, __func__);
    if (SectionFileSize)
        SectionFileSize->QuadPart = (LONGLONG)area->size;
    return STATUS_SUCCESS;
}

/* It goes once nothing leads to it any more; its views stay. */
static void end_if_free(Section *gone)
{
    Section **at = &kz.section->first;
    if (gone->context || kz_is_referenced(gone) || kz_has_handle(gone))
        return;
    while (*at != gone)
        at = &(*at)->next;
    *at = gone->next;
    KzCache *cache = gone->area->cache;
    KzFile *file = gone->area->file;
    file->users++; /* until it is looked at */
    kz_close_area(gone->area);
    free(gone);
    kz_let_cache_go(cache);
    bool is_last = file->users == 1;
    kz_let_go_file(file);
    if (!is_last)
        kz_close_if_due(file);
}

static Section *with_context(PFLT_CONTEXT context)
{
    Section *one = kz.section->first;
    while (one && one->context != context)
        one = one->next;
    return one;
}

NTSTATUS FltCloseSectionForDataScan(PFLT_CONTEXT SectionContext)
{
    KZ_CALL();
    Section *one = SectionContext ? with_context(SectionContext) : NULL;
    if (!one)
        return STATUS_NOT_FOUND;
    one->context = NULL;
    FltReleaseContext(SectionContext);
    end_if_free(one);
    return STATUS_SUCCESS;
}

NTSTATUS FltGetSectionContext(PFLT_INSTANCE Instance, PFILE_OBJECT FileObject, PFLT_CONTEXT *Context)
{
    KZ_CALL();
    (void)Instance;
    Section *one = kz.section->first;
    while (one && !(one->context && &one->area->file->object == FileObject && one->filter == kz_me->place.filter))
        one = one->next;
    *Context = one ? one->context : NULL;
    if (!one)
        return STATUS_NOT_FOUND;
    FltReferenceContext(one->context);
    return STATUS_SUCCESS;
}

/* ---- Conflicts: the filter may close its section then. Its callback data says what the operation is, and no more. */
static void notify(const Section *one, KzOp *op)
{
    PFLT_SECTION_CONFLICT_NOTIFICATION_CALLBACK function = one->filter->registration.SectionNotificationCallback;
    PFLT_CONTEXT context = one->context;
    FLT_IO_PARAMETER_BLOCK iopb = {.MajorFunction = kz_major_of(op), .MinorFunction = op->opaque ? op->opaque->minor : IRP_MN_NORMAL, .TargetInstance = one->instance, .TargetFileObject = &op->file->object};
    FLT_CALLBACK_DATA data = {.Flags = kz_data_flags(op), .Thread = op->thread, .Iopb = &iopb, .RequestorMode = kz_requestor_of(op)};
    uint8_t worker = kz_helper();
    KzPlace before = kz_enter(KZ_IN_NOTIFY, worker, one->filter, one->instance, NULL, &data);
    kz_call_at(PASSIVE_LEVEL);
    unsigned depth = kz_let_driver("section conflict", function);
    KZ_CALL_DRIVER(function, one->instance, context, &data);
    kz_driver_returned(depth, "section conflict returns");
    kz_keep_rest(NULL);
    kz_leave(before);
    kz_helped(worker);
    kz_clean_up();
}

static Section *in_the_way(const SECTION_OBJECT_POINTERS *sections, uint64_t size)
{
    Section *one = kz.section->first;
    while (one && !(one->context && one->area->cache && &one->area->cache->stream->sections == sections && one->area->size > size))
        one = one->next;
    return one;
}

bool kz_has_section_past(const SECTION_OBJECT_POINTERS *sections, uint64_t size)
{
    return in_the_way(sections, size);
}

static bool is_mapped(KzOp *op, const void *stream, uint64_t size)
{
    const SECTION_OBJECT_POINTERS *sections = &((const KzStream *)stream)->sections;
    Section *one = in_the_way(sections, size), *last = NULL;
    while (one && one != last && one->filter->registration.SectionNotificationCallback) {
        notify(one, op);
        last = one;
        one = in_the_way(sections, size);
    }
    return one != NULL;
}

/* ---- Views. */
static Section *section_of(PVOID object)
{
    Section *one = kz.section->first;
    while (one && one != object)
        one = one->next;
    return one;
}

const KzArea *kz_area_of(HANDLE handle)
{
    const Section *one = section_of(kz_object_of(handle));
    return one ? one->area : NULL;
}

NTSTATUS ZwMapViewOfSection(HANDLE SectionHandle, HANDLE ProcessHandle, PVOID *BaseAddress, ULONG_PTR ZeroBits, SIZE_T CommitSize, PLARGE_INTEGER SectionOffset,
                            PSIZE_T ViewSize, ULONG InheritDisposition, ULONG AllocationType, ULONG Win32Protect)
{
    KZ_CALL();
    (void)ProcessHandle, (void)ZeroBits, (void)CommitSize, (void)InheritDisposition, (void)AllocationType;
    const KzMapped asked = {.is_written = Win32Protect == PAGE_READWRITE || Win32Protect == PAGE_EXECUTE_READWRITE, .is_copy = Win32Protect == PAGE_WRITECOPY};
    const KzArea *area = kz_area_of(SectionHandle);
    KzMapped *made = NULL;
    if (!area)
        return STATUS_INVALID_HANDLE;
    NTSTATUS status = kz_map_area(area, SectionOffset ? (uint64_t)SectionOffset->QuadPart : 0, *ViewSize, &asked, &made);
    if (!NT_SUCCESS(status))
        return status; /* in Windows whoever touches it meets STATUS_IN_PAGE_ERROR */
    *BaseAddress = made->bytes;
    *ViewSize = made->count * KZ_PAGE;
    return status;
}

NTSTATUS ZwUnmapViewOfSection(HANDLE ProcessHandle, PVOID BaseAddress)
{
    KZ_CALL();
    (void)ProcessHandle;
    KzCache *cache;
    KzMapped *view = kz_view_at(BaseAddress, &cache);
    if (!view)
        return STATUS_NOT_MAPPED_VIEW;
    kz_unmap_view(cache, view);
    kz_let_cache_go(cache);
    return STATUS_SUCCESS;
}

bool kz_is_section(PVOID object)
{
    return section_of(object) != NULL;
}

static void let_go(const void *object)
{
    Section *one = section_of((PVOID)object);
    if (one)
        end_if_free(one);
}

static void free_sections(void)
{
    while (kz.section->first) {
        Section *one = kz.section->first;
        kz.section->first = one->next;
        free(one->area);
        free(one);
    }
}

const KzModule kz_section_module = {KZ_STATE(section), .free = free_sections, .is_mapped = is_mapped, .let_go = let_go};
