/* Where the lines of an image begin, by its .pdb or by its DWARF. An instruction that was moved after a jump (level.c) has its mark at the jump. */
#include "image/image.h"

#include "core/coverage.h"
#include "core/source.h"

enum { INT3 = 0xcc, JUMP = 0xe9, LONGEST_MOVED = 16, FIRST_HIDDEN = 0xf00000 };

/* The jump before a place whose bytes were moved away, or the place itself. */
static uint32_t jump_before(const KzImage *image, uint32_t at)
{
    uint32_t begin = at;
    for (unsigned back = 0; back < LONGEST_MOVED && begin && image->bytes.start[begin] != image->pristine[begin] && image->bytes.start[begin] != JUMP; back++)
        begin--;
    return begin;
}

/* The driver's own int 3 stays what it is. */
static bool is_marked(const KzImage *image, uint32_t at)
{
    const KzSection *section = at < image->bytes.size ? kz_section_at(&image->headers, at) : NULL;
    return section && section->is_run && image->pristine[at] != INT3;
}

static bool is_of_image(const void *given, uintptr_t at)
{
    const KzImage *image = given;
    uintptr_t within = at - (uintptr_t)image->bytes.start;
    return within < image->bytes.size && is_marked(image, (uint32_t)within);
}

static void add_lines(const KzImage *image)
{
    const char *last = NULL;
    uint32_t path = 0;
    for (size_t at = 0; at < image->lines.count; at++) {
        const KzLine *one = &image->lines.all[at];
        if (!one->line || one->line >= FIRST_HIDDEN || !is_marked(image, one->at))
            continue;
        if (one->file != last)
            path = kz_is_left_out(one->file) ? 0 : kz_note_name(one->file);
        last = one->file;
        if (path)
            kz_add_mark((uintptr_t)image->bytes.start + one->at, path, one->line);
    }
}

void kz_mark_lines(const KzImage *image)
{
    if (!kz_coverage)
        return;
    size_t from = kz_coverage->marks_count;
    if (image->lines.count)
        add_lines(image);
    else
        kz_add_rows(image->path, (uintptr_t)image->bytes.start - image->headers.linked, is_of_image, image);
    for (size_t at = from; at < kz_coverage->marks_count; at++)
        kz_coverage->marks[at].at = (uintptr_t)image->bytes.start + jump_before(image, (uint32_t)(kz_coverage->marks[at].at - (uintptr_t)image->bytes.start));
    kz_put_marks(from);
}
