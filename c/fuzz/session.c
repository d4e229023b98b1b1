/* Random requests, drawn from what the caller has. */
#include "session.h"

enum { FILES = 6, HANDLES = 24 };

static void write_bytes(char *line, size_t used, Draw *draw)
{
    unsigned length = 1 + draw(24);
    for (unsigned at = 0; at < length; at++)
        used += (size_t)snprintf(line + used, LINE - used, "%02x", draw(3) ? (unsigned)"foul"[at % 4] : draw(256));
}

static void file_request(char *line, Draw *draw)
{
    unsigned handle = draw(HANDLES);
    switch (draw(10)) {
    case 0:
    case 1:
        write_bytes(line, (size_t)snprintf(line, LINE, "write %u %u ", handle, draw(64)), draw);
        break;
    case 2:
    case 3:
    case 4:
        snprintf(line, LINE, "read %u %u %u", handle, draw(80), draw(100));
        break;
    case 5:
        snprintf(line, LINE, "querysize %u", handle);
        break;
    case 6:
        snprintf(line, LINE, "setsize %u %u", handle, draw(100));
        break;
    case 7:
        snprintf(line, LINE, "flush %u", handle);
        break;
    case 8:
        snprintf(line, LINE, "setdelete %u", handle);
        break;
    default:
        snprintf(line, LINE, "close %u", handle);
    }
}

/* ---- Names, information, and other major functions. */
static void name_request(char *line, Draw *draw)
{
    static const char *const words[] = {"", " replace", " posix", " ex"}, *const folders[] = {"", "/d", "/d/e"};
    unsigned handle = draw(HANDLES);
    switch (draw(6)) {
    case 0:
    case 1:
        snprintf(line, LINE, "rename %u %s/f%u.txt%s", handle, folders[draw(3)], draw(FILES), words[draw(4)]);
        break;
    case 2:
        snprintf(line, LINE, "link %u %s/f%u.txt%s", handle, folders[draw(3)], draw(FILES), words[draw(2)]);
        break;
    case 3:
        snprintf(line, LINE, "dispose %u %s", handle, draw(3) ? draw(2) ? "delete" : "delete posix" : "keep");
        break;
    case 4:
        snprintf(line, LINE, "rename %u /d%s", handle, draw(2) ? "" : "/e");
        break;
    default:
        snprintf(line, LINE, "%s v0 %s", draw(2) ? "mkdir" : "opendir", draw(3) ? "d" : draw(2) ? "d/e" : "/");
    }
}

static void beside_request(char *line, Draw *draw)
{
    static const char *const classes[] = {"basic", "standard", "name", "all", "network", "streams", "tag", "internal"}, *const sizes[] = {"end", "allocation", "valid", "position", "attributes"};
    static const char *const plain[] = {"queryea %u", "querysecurity %u", "queryvolume %u size", "map %u", "fsctl %u 0x900a8", "ioctl %u 0x70000 6162 8", "unlockall %u", "watch %u tree", "watch %u"};
    unsigned handle = draw(HANDLES);
    switch (draw(8)) {
    case 0:
    case 1:
        snprintf(line, LINE, "query %u %s", handle, classes[draw(8)]);
        break;
    case 2:
        snprintf(line, LINE, "set %u %s %u", handle, sizes[draw(5)], draw(100));
        break;
    case 3:
        snprintf(line, LINE, "dir %u both%s%s", handle, draw(2) ? " f*" : "", draw(2) ? " restart" : "");
        break;
    case 4:
        snprintf(line, LINE, "%s %u %u %u", draw(2) ? "lock" : "unlock", handle, draw(40), draw(20));
        break;
    case 5:
        snprintf(line, LINE, draw(2) ? "pagein %u %u 50" : "pageout %u %u 666f756c", handle, draw(60));
        break;
    case 6:
        snprintf(line, LINE, draw(3) ? "networkopen v0 f%u.txt" : "setea %u NAME 0102", handle % FILES);
        break;
    default:
        snprintf(line, LINE, plain[draw(9)], handle);
    }
}

static void other_request(char *line, Draw *draw)
{
    if (draw(3))
        name_request(line, draw);
    else
        beside_request(line, draw);
}

void session_request(char *line, Draw *draw)
{
    static const char *const modes[] = {"existing", "new", "always"}, *const kinds[] = {"pool", "context", "name", "device"};
    unsigned chance = draw(100);
    if (chance < 20)
        other_request(line, draw);
    else if (chance < 60)
        file_request(line, draw);
    else if (chance < 80)
        snprintf(line, LINE, "create v0 %s f%u.txt", modes[draw(3)], draw(FILES));
    else if (chance < 84)
        snprintf(line, LINE, "list v0");
    else if (chance < 89)
        snprintf(line, LINE, "fail %s %u", kinds[draw(4)], 1 + draw(5));
    else if (chance < 93)
        snprintf(line, LINE, "detach %u", draw(6));
    else if (chance < 97)
        snprintf(line, LINE, "attach %s v0 i%u %u", kz_drivers[draw((unsigned)kz_drivers_count)].name, draw(6), 100 + draw(9));
    else
        snprintf(line, LINE, "time %u", draw(5000));
}

size_t session_begin(char lines[REQUESTS][LINE])
{
    size_t count = 0;
    for (size_t at = 0; at < kz_drivers_count && at < 4; at++) {
        snprintf(lines[count++], LINE, "load %s", kz_drivers[at].name);
        snprintf(lines[count++], LINE, "attach %s v0 first%zu %zu", kz_drivers[at].name, at, 200 + at);
    }
    return count;
}

int session_write(const char *path, const char *const *requests, size_t count)
{
    FILE *file = fopen(path, "w");
    if (!file)
        return 3;
    for (size_t at = 0; at < count; at++)
        fprintf(file, "%s\n", requests[at]);
    return fclose(file) == 0 ? 0 : 3;
}
