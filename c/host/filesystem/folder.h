/* A folder of the host machine below volume 0. All is opened below one descriptor: no path and no link leads out of it. Its files are regular files. */
#ifndef KZ_FOLDER_H
#define KZ_FOLDER_H

#include "kazdrin.h"

#include <stdbool.h>

typedef struct {
    int descriptor; /* -1: there is none */
    int orphan;     /* of a call: the file that it is about has no name any more, and this descriptor, and 1 more */
} KzFolder;

typedef struct {
    uint8_t status;
    uint64_t information;
    const uint8_t *bytes; /* until the next call */
    size_t length;
} KzFolderAnswer;

/* 0 or an errno */
int kz_open_folder(KzFolder *folder, const char *path);
/* Carries out a call of the base as fltd's folder does: the path of its file, and what is written. */
KzFolderAnswer kz_call_folder(KzFolder *folder, const KazdrinData *call, const char *path, const uint8_t *bytes);

/* What is below it by that name. */
typedef struct {
    bool is_there, is_directory;
    bool is_other; /* what is there is neither a file nor a directory of the folder: a pipe, a link that leads out */
    uint64_t size;
    int64_t written; /* as the kit counts time */
    uint16_t mode;
    uint64_t read_at, written_at; /* nanoseconds since 1970 */
} KzFound;

void kz_folder_look(const KzFolder *folder, const char *path, KzFound *found);
/* Says the name of each entry of a folder. */
void kz_folder_entries(const KzFolder *folder, const char *path, void (*say)(void *given, const char *name), void *given);
/* A descriptor of a file that is about to lose its name: -1 if there is none. */
int kz_folder_hold(const KzFolder *folder, const char *path);
/* What is there by the new name goes, if the file is to replace it. */
KzFolderAnswer kz_folder_rename(const KzFolder *folder, const char *from, const char *to, bool is_link, bool replaces);
KzFolderAnswer kz_folder_make(const KzFolder *folder, const char *path);
KzFolderAnswer kz_folder_unlink(const KzFolder *folder, const char *path);

#endif
