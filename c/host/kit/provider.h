/* Name providers: filters that say what those above them see as a file's name. */
#ifndef KZ_KIT_PROVIDER_H
#define KZ_KIT_PROVIDER_H

#include "host.h"

/* Whoever asks for a name, and of what. */
typedef struct {
    PFLT_INSTANCE asker;
    KzFile *file;
    KzOp *op; /* and its data, of a callback; else NULL */
    PFLT_CALLBACK_DATA data;
    FLT_FILE_NAME_OPTIONS options;
} KzNameAsked;

/* False if no provider stands below. Else its status, and the whole name, with `/`. */
bool kz_ask_provider(const KzNameAsked *asked, char *room, size_t size, NTSTATUS *status);
/* A whole name that leads somewhere: its parts that look like short ones are asked for, if a provider stands below. */
void kz_normalize_destination(const KzNameAsked *asked, char *room, size_t size);

#endif
