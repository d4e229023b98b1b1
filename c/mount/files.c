/* Open files, on the line that opened them or elsewhere for one operation. */
#include "files.h"

#include <errno.h>
#include <stdlib.h>

static void remove_file(File *file)
{
    Nodes *nodes = &file->mount->nodes;
    pthread_mutex_lock(&nodes->mutex);
    File **at = &file->node->files;
    while (*at != file)
        at = &(*at)->next;
    *at = file->next;
    pthread_cond_broadcast(&nodes->gone);
    pthread_mutex_unlock(&nodes->mutex);
}

/* It stays in its node's list until the server has answered: so long its name is hidden. */
static void close_file(Errand *errand, Line *line)
{
    File *file = (File *)errand;
    Mount *mount = file->mount;
    if (line->generation == file->generation) {
        Call call = call_on(mount, line);
        call_close(&call, file->node, file->handle);
    }
    remove_file(file);
    pool_count_file(&mount->pool, line, file->generation, false);
    nodes_let_go(&mount->nodes, file->node);
    free(file);
}

File *file_open(Call *call, Node *node)
{
    Mount *mount = call->mount;
    File *file = malloc(sizeof *file);
    if (!file)
        return NULL;
    *file = (File){{NULL, close_file}, mount, node, call->line, pool_generation(&mount->pool, call->line), call->handle, NULL, 1};
    call->has_handle = false;
    pool_count_file(&mount->pool, file->home, file->generation, true);
    pthread_mutex_lock(&mount->nodes.mutex);
    file->next = node->files;
    node->files = file;
    node->holds++;
    pthread_mutex_unlock(&mount->nodes.mutex);
    return file;
}

File *file_lend(Mount *mount, Node *node)
{
    pthread_mutex_lock(&mount->nodes.mutex);
    File *file = node->files;
    while (file && file->users == 0)
        file = file->next;
    if (file)
        file->users++;
    pthread_mutex_unlock(&mount->nodes.mutex);
    return file;
}

void file_leave(File *file)
{
    Nodes *nodes = &file->mount->nodes;
    pthread_mutex_lock(&nodes->mutex);
    bool is_last = --file->users == 0;
    pthread_mutex_unlock(&nodes->mutex);
    if (is_last)
        pool_send(&file->mount->pool, file->home, &file->errand);
}

/* Opens it once more on the call's line, by the name that it has. What it does then may be held: so it doesn't stay in the gate. */
static int open_again(Call *call, Node *node, const char *path, uint64_t *handle)
{
    int error = call_open(call, path, CREATE_EXISTING);
    if (error == 0 && !nodes_is(&call->mount->nodes, node, path))
        error = ENOENT;
    if (!call->is_abandoned)
        call_leave(call);
    *handle = call->handle;
    return error;
}

static int take(Call *call, const File *file, bool is_home_alone, bool may_be_reserved)
{
    return call_take(call, (Want){file->home, file->generation, is_home_alone, may_be_reserved, true});
}

/* It has no name any more, or a create of that would wait behind abandoned ones. A flush may let those go. */
static bool is_at_home_alone(Call *call, const Look *look)
{
    Mount *mount = call->mount;
    if (look->is_deleted || call->matter == FLUSHES)
        return look->is_deleted;
    return pool_is_scarce(&mount->pool) && gate_has_abandoned(&mount->gates, call->gate, NAMES);
}

int file_reach(Call *call, File *file, Matter matter, uint64_t *handle)
{
    Look look = nodes_look(&call->mount->nodes, file->node);
    int error = call_wait(call, look.path, matter, BESIDE_CREATES);
    if (error == 0)
        error = take(call, file, is_at_home_alone(call, &look), matter != BYTES);
    if (error == 0 && call->line != file->home)
        error = open_again(call, file->node, look.path, handle);
    else
        *handle = file->handle;
    if (error == ENOENT) {
        /* it was deleted or renamed meanwhile: the handle that there is has it still */
        call_end(call);
        *handle = file->handle;
        error = take(call, file, true, false);
    }
    return error == ENOTCONN ? EIO : error;
}

void file_done(Call *call, File *file)
{
    if (call->has_handle && !call->is_abandoned) {
        call->has_handle = false;
        call_close(call, file->node, call->handle);
    }
    call_end(call);
}

static void free_files(File *file)
{
    while (file) {
        File *next = file->next;
        free(file);
        file = next;
    }
}

static void free_files_of(Node *node)
{
    for (; node; node = node->next)
        free_files(node->files);
}

void files_free(Nodes *nodes)
{
    for (unsigned at = 0; at < CHAINS; at++)
        free_files_of(nodes->chains[at]);
}
