/* The .pdb of an image: beside it by the image's own name or by the name that the linker gave it, else where the linker left it. One of another build isn't used. */
#include "image/image.h"

#include "core/memory.h"

#include <stdlib.h>

enum { DEBUG = 6, CODEVIEW = 2, LONGEST = 1024 };

typedef struct {
    uint32_t characteristics, stamp, version, type, size, at, raw;
} Entry;

typedef struct {
    char mark[4];
    KzBuild build;
    uint32_t age;
} CodeView;

static bool find_build(const KzImage *image, KzBuild *build, const char **path)
{
    KzBytes bytes = {image->pristine, image->bytes.size}, table = kz_directory(&image->headers, bytes, DEBUG);
    Entry entry;
    CodeView view;
    for (size_t at = 0; kz_copy(table, at, &entry, sizeof entry); at += sizeof entry) {
        if (entry.type != CODEVIEW || !kz_copy(bytes, entry.at, &view, sizeof view) || memcmp(view.mark, "RSDS", 4) != 0)
            continue;
        *build = view.build;
        *path = kz_text_at(bytes, (uint64_t)entry.at + sizeof view, LONGEST);
        return *path && **path;
    }
    return false;
}

/* False if it isn't there. */
static bool try_one(KzImage *image, const char *path, const KzBuild *build)
{
    KzRefusal why;
    KzBytes file;
    if (!kz_read_file(path, &file, &why))
        return false;
    if (!kz_read_lines(file, &image->headers, build, &image->lines, &why)) {
        fprintf(stderr, "%s isn't used: %s\n", path, why.text);
        kz_forget_lines(&image->lines);
    }
    free(file.start);
    return true;
}

void kz_read_symbols(KzImage *image)
{
    KzBuild build;
    const char *linked;
    char path[2 * LONGEST];
    if (!find_build(image, &build, &linked))
        return;
    int folder = (int)(kz_last_name(image->path) - image->path), own = (int)strlen(image->path) - 4; /* without .sys */
    snprintf(path, sizeof path, "%.*s.pdb", own, image->path);
    if (try_one(image, path, &build))
        return;
    snprintf(path, sizeof path, "%.*s%s", folder, image->path, kz_last_name(linked));
    if (!try_one(image, path, &build))
        try_one(image, linked, &build);
}
