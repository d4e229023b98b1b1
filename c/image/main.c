/* The words of a program that runs binaries: those that end with .sys are drivers, beside those that are linked with it. All others are the program's own, whichever it is: the linker
 * has its main come behind this one. */
#include "image/image.h"

#include "core/coverage.h"

#include <stdlib.h>
#include <strings.h>

enum { MOST = 128 };

/* As the host's programs read them. */
KzDriver kz_drivers[MOST];
size_t kz_drivers_count;
extern const KzDriver kz_linked_drivers[];
extern const size_t kz_linked_drivers_count;

int __real_main(int count, char **words);
int __wrap_main(int count, char **words);

static bool is_driver(const char *word)
{
    size_t length = strlen(word);
    return length > 4 && strcasecmp(word + length - 4, ".sys") == 0;
}

static void load(const char *path)
{
    KzRefusal why;
    const KzImage *image = kz_drivers_count < MOST ? kz_load_image(path, &why) : NULL;
    if (kz_drivers_count == MOST)
        kz_refuse(&why, "there are %d drivers already", MOST);
    if (!image) {
        fprintf(stderr, "%s can't be loaded: %s\n", path, why.text);
        exit(3);
    }
    kz_drivers[kz_drivers_count++] = image->driver;
}

int __wrap_main(int count, char **words)
{
    int kept = 1;
    kz_count_lines();
    for (; kz_drivers_count < kz_linked_drivers_count && kz_drivers_count < MOST; kz_drivers_count++)
        kz_drivers[kz_drivers_count] = kz_linked_drivers[kz_drivers_count];
    for (int at = 1; at < count; at++) {
        if (is_driver(words[at]))
            load(words[at]);
        else
            words[kept++] = words[at];
    }
    words[kept] = NULL;
    return __real_main(kept, words);
}
