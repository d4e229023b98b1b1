/* The words of the command line. */
#ifndef KZ_MOUNT_OPTIONS_H
#define KZ_MOUNT_OPTIONS_H

#include "mount.h"

#include <stdio.h>

/* The options, and in `words` what is left for libfuse. False: they are wrong, and it was said why. */
bool options_read(struct fuse_args *words, Options *options);
void options_usage(FILE *to);

#endif
