/* The words of the command line. */
#include "options.h"

#include <limits.h>
#include <stddef.h>
#include <stdio.h>
#include <stdlib.h>
#include <string.h>

#define FEWEST_CONNECTIONS 4
/* No mode is given. */
#define NO_MODE UINT_MAX
/* No seconds are given: one mount alone keeps names and sizes for a second. */
#define NO_SECONDS (-1.5)
#define USUAL_SECONDS 1

#define OPTION(text, field, value) {text, offsetof(Options, field), value}

static const struct fuse_opt known[] = {
    OPTION("connections=%u", connections, 0),
    OPTION("volume=%u", volume, 0),
    OPTION("mode=%o", mode, 0),
    OPTION("attr=%lf", attr, 0),
    OPTION("shared", is_shared, 1),
    OPTION("folders=%s", folders, 0),
    OPTION("cached", is_cached, 1),
    OPTION("copyrename", has_copyrename, 1),
    OPTION("memtimes", has_memtimes, 1),
    OPTION("memmodes", has_memmodes, 1),
    OPTION("keep", is_kept, 1),
    OPTION("below=%s", below, 0),
    OPTION("allow_other", is_for_others, 1),
    FUSE_OPT_END,
};

void options_usage(FILE *to)
{
    fputs("usage: fltmount SOCKET MOUNTPOINT [-f] [-o OPTION[,OPTION]..]\n"
          "\n"
          "Mounts the folder that a server serves at SOCKET. It goes to the background, unless -f is given; fusermount3 -u MOUNTPOINT ends it.\n"
          "\n"
          "  cached           the kernel keeps pages of a file until it is opened anew: for shared mappings\n"
          "  attr=S           it keeps names and sizes for S seconds (1)\n"
          "  shared           others change files below: it keeps none, unless attr is given\n"
          "  folders=A:B:B/C  these names are folders\n"
          "  copyrename       a rename copies the file, and deletes the old name\n"
          "  memtimes         given times are kept until the unmount\n"
          "  memmodes         given modes are, also of files that were there before\n"
          "  keep             memtimes and memmodes; given owners are kept too, and a new file is its maker's\n"
          "  mode=0755        the mode of files (0644); given, it bounds the modes of new ones\n"
          "  below=FOLDER     the server's folder: folders and links are made in it, and it is asked for its room, and synced\n"
          "  connections=N    so many connections with the server, 4 to 31 (16)\n"
          "  volume=V         the volume (0)\n"
          "  allow_other      others may use it as the modes say (default_permissions)\n"
          "  ro and others    as for any FUSE mount\n",
          to);
}

/* The first word is the socket; the others are libfuse's. */
static int take_word(void *data, const char *word, int key, struct fuse_args *rest)
{
    Options *options = data;
    (void)rest;
    if (key != FUSE_OPT_KEY_NONOPT || options->socket)
        return 1;
    options->socket = strdup(word);
    return options->socket ? 0 : -1;
}

static bool is_in_range(const Options *options)
{
    if (options->connections < FEWEST_CONNECTIONS || options->connections > MOST_LINES)
        fprintf(stderr, "fltmount: connections is %d to %d\n", FEWEST_CONNECTIONS, MOST_LINES);
    else if (options->volume > 255)
        fputs("fltmount: volume is 0 to 255\n", stderr);
    else if (options->mode > 0777)
        fputs("fltmount: mode is 0 to 0777\n", stderr);
    else if (!(options->attr >= 0 && options->attr <= 86400))
        fputs("fltmount: attr is 0 to 86400 seconds\n", stderr);
    else
        return true;
    return false;
}

bool options_read(struct fuse_args *words, Options *options)
{
    *options = (Options){.connections = 16, .mode = NO_MODE, .attr = NO_SECONDS};
    if (fuse_opt_parse(words, options, known, take_word) != 0)
        return false;
    if (options->is_kept)
        options->has_memtimes = options->has_memmodes = 1;
    if (options->attr == NO_SECONDS)
        options->attr = options->is_shared ? 0 : USUAL_SECONDS;
    options->is_mode_given = options->mode != NO_MODE;
    if (!options->is_mode_given)
        options->mode = 0644;
    if (!options->socket) {
        options_usage(stderr);
        return false;
    }
    if (!is_in_range(options))
        return false;
    char *whole = realpath(options->socket, NULL);
    if (whole) {
        free(options->socket);
        options->socket = whole;
    }
    return true;
}
