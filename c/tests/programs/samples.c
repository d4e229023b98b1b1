/* Random requests through the drivers that are linked with it: samples COUNT SEED waits, or samples COUNT SEED [DRIVER ..], which leaves out all others. With the word `waits` drivers may wait
 * for one another: where a wait was given up, which is a limit, contexts may be left. Each session of up to 400 requests has a manager of its own.
 * It loads, attaches, detaches and unloads drivers, mounts and dismounts volumes, and reads and writes files meanwhile. At its end nothing may have been told, and all
 * contexts are cleaned up. */
#include "kzflt.h"

#include <stdlib.h>
#include <string.h>

extern const KzDriver kz_drivers[];
extern const size_t kz_drivers_count;

enum { SESSION = 400, FILES = 12, LINE = 600 };

static KzDriver drivers[100];
static size_t drivers_count;
static uint64_t state;
static uint64_t handles[64];
static size_t handles_count;
static unsigned filters, instances, volumes;

static unsigned below(unsigned limit)
{
    state ^= state << 13;
    state ^= state >> 7;
    state ^= state << 17;
    return (unsigned)(state % limit);
}

/* A handle, mostly one that is open. */
static uint64_t handle(void)
{
    return handles_count && below(20) ? handles[below((unsigned)handles_count)] : below(200);
}

static void write_words(char *line)
{
    int used = snprintf(line, LINE, "write %llu %u ", (unsigned long long)handle(), below(64));
    unsigned length = 1 + below(40);
    for (unsigned at = 0; at < length; at++)
        used += snprintf(line + used, LINE - (size_t)used, "%02x", below(8) ? (unsigned)"foul"[at % 4] : 'a' + below(26));
}

static void file_words(char *line)
{
    unsigned long long own = handle();
    switch (below(9)) {
    case 0:
    case 1:
        write_words(line);
        break;
    case 2:
    case 3:
    case 4:
        snprintf(line, LINE, "read %llu %u %u", own, below(80), below(100));
        break;
    case 5:
        snprintf(line, LINE, "querysize %llu", own);
        break;
    case 6:
        snprintf(line, LINE, "setsize %llu %u", own, below(100));
        break;
    case 7:
        snprintf(line, LINE, "flush %llu", own);
        break;
    default:
        snprintf(line, LINE, below(4) ? "close %llu" : "setdelete %llu", own);
    }
}

static void manager_words(char *line)
{
    switch (below(10)) {
    case 0:
        snprintf(line, LINE, "load %s", drivers[below((unsigned)drivers_count)].name);
        break;
    case 1:
    case 2:
    case 3:
        snprintf(line, LINE, "attach %u %u i%u %u.%u", below(filters + 1), below(volumes + 1), below(30), below(400), below(10));
        break;
    case 4:
    case 5:
        snprintf(line, LINE, "detach %u", below(instances + 1));
        break;
    case 6:
        snprintf(line, LINE, below(8) ? "list %u" : "unload %u", below(filters + 1));
        break;
    case 7:
        snprintf(line, LINE, below(25) ? "list %u" : "dismount %u", below(volumes + 1));
        break;
    case 8:
        snprintf(line, LINE, below(3) ? "list 0" : "mount v%u", below(4));
        break;
    default:
        snprintf(line, LINE, "nonsense %u", below(9));
    }
}

static void create_words(char *line)
{
    static const char *const modes[] = {"existing", "new", "always"};
    static const char *const ends[] = {"", ".txt", ".doc", "/part"};
    unsigned name = below(FILES);
    snprintf(line, LINE, "create %u %s f%u%s", below(volumes + (below(30) == 0)), modes[below(3)], name, ends[name % 4]);
}

static void forget(uint64_t closed)
{
    for (size_t at = 0; at < handles_count; at++)
        if (handles[at] == closed) {
            handles[at] = handles[--handles_count];
            return;
        }
}

static void note(const char *line, KzReply reply)
{
    unsigned long long own;
    if (reply.held || reply.status != 0)
        return;
    if (line[0] == 'c' && line[1] == 'r' && handles_count < 64)
        handles[handles_count++] = reply.information;
    else if (sscanf(line, "close %llu", &own) == 1)
        forget(own);
    else if (line[0] == 'l' && line[1] == 'o')
        filters++;
    else if (line[0] == 'a')
        instances++;
    else if (line[0] == 'm')
        volumes++;
}

/* Every driver is loaded and attached, at altitudes that chance gives. */
static void begin(void)
{
    char line[LINE];
    handles_count = 0;
    filters = instances = 0;
    volumes = 1;
    for (unsigned at = 0; at < drivers_count; at++) {
        snprintf(line, LINE, "load %s", drivers[at].name);
        note(line, kz_request(line));
        snprintf(line, LINE, "attach %u 0 first%u %u", at, at, below(400));
        note(line, kz_request(line));
    }
}

static void session(unsigned length)
{
    char line[LINE];
    begin();
    for (unsigned at = 0; at < length; at++) {
        unsigned kind = below(10);
        if (kind < 6)
            file_words(line);
        else if (kind < 8)
            create_words(line);
        else
            manager_words(line);
        note(line, kz_request(line));
    }
}

static bool is_meant(const char *name, int count, char **words)
{
    bool is_one = count == 0;
    for (int at = 0; at < count; at++)
        is_one |= strcmp(words[at], name) == 0;
    return is_one;
}

int main(int count, char **words)
{
    bool may_wait = count > 3 && strcmp(words[3], "waits") == 0;
    for (size_t at = 0; at < kz_drivers_count && drivers_count < sizeof drivers / sizeof drivers[0]; at++)
        if (is_meant(kz_drivers[at].name, count > 3 && !may_wait ? count - 3 : 0, words + 3))
            drivers[drivers_count++] = kz_drivers[at];
    unsigned long all = count > 1 ? strtoul(words[1], NULL, 10) : 1000, made = 0;
    state = (count > 2 ? strtoul(words[2], NULL, 10) : 1) * 0x9e3779b97f4a7c15u + 1;
    kz_is_quiet = 1;
    uint64_t born = 0;
    while (made < all) {
        unsigned length = all - made < SESSION ? (unsigned)(all - made) : SESSION;
        if (kz_open(drivers, drivers_count) != 0)
            return 1;
        session(length);
        made += length;
        int status = kz_close();
        KzCounts counts = kz_counts();
        born += counts.born;
        bool is_left = counts.born != counts.cleaned && !(may_wait && counts.limits);
        if (status != 0 || is_left) {
            printf("request %lu: told %llu, born %llu, cleaned %llu\n", made, (unsigned long long)counts.told, (unsigned long long)counts.born,
                   (unsigned long long)counts.cleaned);
            return 1;
        }
    }
    printf("%lu requests: %s, all cleaned up, nothing told\n", made, born > made / 50 ? "many contexts" : "few contexts");
    return 0;
}
