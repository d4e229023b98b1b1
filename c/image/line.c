/* Where a binary's code stands, in words: a line of its source by its .pdb, or by its DWARF, which a program like addr2line reads where one is there; else the function's name, if it is exported,
 * or the driver's, with how far that is behind it, as a debugger says it. It is called in a signal's handler too. */
#include "image/image.h"
#include "core/source.h"

typedef struct {
    uint32_t begin, end, unwind;
} Function;

/* The function's begin by .pdata. */
static uint32_t begin_of(const KzImage *image, uint32_t at)
{
    KzBytes table = kz_directory(&image->headers, image->bytes, KZ_EXCEPTIONS);
    Function one;
    for (size_t row = 0; kz_copy(table, row * sizeof one, &one, sizeof one); row++)
        if (at >= one.begin && at < one.end)
            return one.begin;
    return 0;
}

const char *kz_last_name(const char *path)
{
    const char *name = path + strlen(path);
    while (name > path && name[-1] != '/' && name[-1] != '\\')
        name--;
    return name;
}

const char *kz_find_image_path(uintptr_t address, unsigned *line)
{
    const KzImage *image = kz_image_at(address);
    const KzLine *found = image ? kz_line_at(&image->lines, (uint32_t)(address - (uintptr_t)image->bytes.start)) : NULL;
    if (found)
        *line = found->line;
    return found ? found->file : NULL;
}

bool kz_find_image_variable(uintptr_t address, char *room, size_t size)
{
    const KzImage *image = kz_image_at(address);
    uint32_t at = image ? (uint32_t)(address - (uintptr_t)image->bytes.start) : 0;
    const KzSection *section = image ? kz_section_at(&image->headers, at) : NULL;
    const KzVariable *found = section ? kz_variable_at(&image->lines, at) : NULL;
    if (!found || found->at < section->at)
        return false;
    if (found->at == at)
        snprintf(room, size, "%s", found->name);
    else
        snprintf(room, size, "%s+%u", found->name, at - found->at);
    return true;
}

bool kz_find_image_line(uintptr_t address, char *room, size_t size)
{
    const KzImage *image = kz_image_at(address);
    if (!image)
        return false;
    uint32_t at = (uint32_t)(address - (uintptr_t)image->bytes.start), begin = begin_of(image, at);
    uintptr_t linked = image->headers.linked + at;
    const KzLine *line = kz_line_at(&image->lines, at);
    if (line && !kz_is_left_out(line->file)) {
        snprintf(room, size, "%s:%u", kz_last_name(line->file), line->line);
        return true;
    }
    if (image->lines.count == 0 && (kz_ask_line("llvm-addr2line", image->path, linked, room, size) || kz_ask_line("addr2line", image->path, linked, room, size)))
        return true;
    const char *name = begin ? kz_exported_name(&image->headers, (KzBytes){image->pristine, image->bytes.size}, begin) : NULL;
    if (name)
        snprintf(room, size, "%s!%s+0x%x", image->driver.name, name, at - begin);
    else
        snprintf(room, size, "%s+0x%x", image->driver.name, at);
    return true;
}
