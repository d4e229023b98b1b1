/* Images: files of which a process has a section to be executed. As long as one has, nobody opens the file to write it, and it isn't deleted. */
#include "cache/image.h"

#include "cache/paging.h"
#include "core/client.h"
#include "core/memory.h"
#include "core/module.h"
#include "filesystem/fileobject.h"
#include "filesystem/store.h"

#include <stdlib.h>

typedef struct Image {
    struct Image *next;
    KzFile *file;
    uint64_t process;
} Image;

struct KzImageState {
    Image *first;
};

static NTSTATUS read_headers(KzFile *file)
{
    uint64_t there;
    const KzPaging asked = {.length = KZ_PAGE, .flags = IRP_PAGING_IO | IRP_NOCACHE | IRP_SYNCHRONOUS_PAGING_IO};
    KzCache *cache = kz_cache_of(file);
    NTSTATUS status = cache ? kz_flush_cache(cache, 0, 0) : STATUS_SUCCESS;
    return NT_SUCCESS(status) ? kz.store->page(file, &asked, &there) : status;
}

NTSTATUS kz_map_image(KzFile *file, uint64_t process)
{
    KzStream *stream = file->name ? file->name->stream : NULL;
    if (!stream || file->is_directory || file->is_volume)
        return STATUS_INVALID_FILE_FOR_SECTION;
    if (!stream->size)
        return STATUS_MAPPED_FILE_SIZE_ZERO;
    NTSTATUS status = read_headers(file);
    if (!NT_SUCCESS(status))
        return status;
    Image *made = kz_memory(sizeof *made);
    *made = (Image){kz.image->first, file, process};
    kz.image->first = made;
    stream->sections.ImageSectionObject = made;
    file->users++;
    return status;
}

static Image *of_stream(const KzStream *stream)
{
    Image *one = kz.image->first;
    while (one && one->file->name->stream != stream)
        one = one->next;
    return one;
}

void kz_end_images(uint64_t process)
{
    for (Image **at = &kz.image->first; *at;) {
        Image *gone = *at;
        if (gone->process != process) {
            at = &gone->next;
            continue;
        }
        KzStream *stream = gone->file->name->stream;
        *at = gone->next;
        stream->sections.ImageSectionObject = of_stream(stream);
        kz_let_go_file(gone->file);
        free(gone);
    }
}

static void free_images(void)
{
    while (kz.image->first) {
        Image *gone = kz.image->first;
        kz.image->first = gone->next;
        free(gone);
    }
}

const KzModule kz_image_module = {KZ_STATE(image), .free = free_images};
