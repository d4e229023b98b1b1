/* Texts that stay until the end of the run: paths and requests, for what is told later. Each once. Those of a client are in the order in which it came to them: so they are the same
 * whoever came first. */
#include "core/kept.h"

#include "core/client.h"
#include "core/memory.h"
#include "core/module.h"

#include <stdlib.h>

enum { LISTS = 16, PLACES = 256, MOST = 8192, LONGEST = 100 };

typedef struct Text {
    struct Text *next;
    char text[];
} Text;

struct KzKeptState {
    struct {
        Text *places[PLACES];
        unsigned count;
    } lists[LISTS];
};

static unsigned hash_of(const char *text, size_t length)
{
    unsigned hash = 2166136261u;
    for (size_t at = 0; at < length; at++)
        hash = (hash ^ (uint8_t)text[at]) * 16777619u;
    return hash % PLACES;
}

/* Of a longer text its start. */
const char *kz_kept_text(const char *text)
{
    size_t length = strcspn(text, "\r\n");
    bool is_long = length > LONGEST;
    length = is_long ? LONGEST : length;
    unsigned list = kz_me->number % LISTS, hash = hash_of(text, length);
    for (Text *one = kz.kept->lists[list].places[hash]; one; one = one->next)
        if (strncmp(one->text, text, length) == 0 && strcmp(one->text + length, is_long ? ".." : "") == 0)
            return one->text;
    if (kz.kept->lists[list].count == MOST)
        return NULL;
    Text *made = kz_memory(sizeof *made + length + 3);
    made->next = kz.kept->lists[list].places[hash];
    memcpy(made->text, text, length);
    strcpy(made->text + length, is_long ? ".." : "");
    kz.kept->lists[list].places[hash] = made;
    kz.kept->lists[list].count++;
    return made->text;
}

static void free_kept_texts(void)
{
    for (unsigned at = 0; at < LISTS * PLACES; at++) {
        Text **first = &kz.kept->lists[at / PLACES].places[at % PLACES];
        while (*first) {
            Text *one = *first;
            *first = one->next;
            free(one);
        }
    }
}

const KzModule kz_kept_module = {KZ_STATE(kept), .free = free_kept_texts};
