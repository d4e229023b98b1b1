/* Requests for what happens beside files: threads, images, handles of processes, keys. */
#ifndef KZ_RUN_EVENTS_H
#define KZ_RUN_EVENTS_H

#include "kzflt.h"

/* `thread start P`, `thread start P from Q`, `thread end P T` */
KzReply kz_ask_thread(char **words);
/* `image load P PATH` */
KzReply kz_ask_image(char **words);
/* `open process P ACCESS`, `open thread P T ACCESS`, each with `duplicate` or `kernel` */
KzReply kz_ask_open(char **words);
/* `registry set KEY NAME DATA`, `registry query KEY NAME`, `registry delete KEY [NAME]`, `registry rename KEY NAME`, `registry create KEY`, `registry open KEY`, `registry list KEY` */
KzReply kz_ask_key(char **words);

#endif
