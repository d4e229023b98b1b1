/* The table of nodes. A node is there while the kernel knows it, while it is held, or while its times, its mode or its owner are kept. */
#include "nodes.h"

#include "path.h"

#include <errno.h>
#include <stdio.h>
#include <stdlib.h>
#include <string.h>
#include <unistd.h>

/* Numbers of a name that came back lie so far apart: odd, and no small one. */
#define SPREAD 11400714819323198485u

static void lock(Nodes *nodes)
{
    pthread_mutex_lock(&nodes->mutex);
}

static void unlock(Nodes *nodes)
{
    pthread_mutex_unlock(&nodes->mutex);
}

void nodes_open(Nodes *nodes)
{
    *nodes = (Nodes){0};
    pthread_mutex_init(&nodes->mutex, NULL);
    condition_open(&nodes->gone);
    clock_gettime(CLOCK_REALTIME, &nodes->begun);
}

static Node **chain_of(Nodes *nodes, const char *path)
{
    return &nodes->chains[hash_of(path) % CHAINS];
}

/* The node that has the name, or one that had it and is open still. */
static Node *find(Nodes *nodes, const char *path, bool is_deleted)
{
    Node *node = *chain_of(nodes, path);
    while (node && (node->is_deleted != is_deleted || strcmp(node->path, path) != 0))
        node = node->next;
    return node;
}

static void unlink_node(Nodes *nodes, Node *node)
{
    Node **at = chain_of(nodes, node->path);
    while (*at != node)
        at = &(*at)->next;
    *at = node->next;
}

static bool is_kept(const Node *node)
{
    return (node->has_times || node->has_mode || node->has_owner) && !node->is_deleted;
}

static void reap(Nodes *nodes, Node *node)
{
    if (node->lookups > 0 || node->holds > 0 || is_kept(node))
        return;
    unlink_node(nodes, node);
    nodes->hidden -= node->is_deleted ? 1 : 0;
    free(node->path);
    free(node);
}

static void count_deletion(Nodes *nodes, const char *path)
{
    nodes->deletions[hash_of(path) % CHAINS]++;
}

static uint64_t number_of(const Nodes *nodes, const char *path)
{
    uint64_t hash = hash_of(path);
    return hash + nodes->deletions[hash % CHAINS] * SPREAD;
}

static void mark_deleted(Nodes *nodes, Node *node)
{
    node->is_deleted = true;
    nodes->hidden++;
    count_deletion(nodes, node->path);
    reap(nodes, node);
}

static Node *add(Nodes *nodes, const char *path, Kind kind)
{
    Node *node = calloc(1, sizeof *node), **chain = chain_of(nodes, path);
    char *copy = strdup(path);
    if (!node || !copy) {
        free(node);
        free(copy);
        return NULL;
    }
    *node = (Node){.next = *chain, .path = copy, .kind = kind, .changed = nodes->begun, .read = nodes->begun, .renewed = nodes->begun, .number = number_of(nodes, path)};
    *chain = node;
    return node;
}

Node *nodes_found(Nodes *nodes, const char *path, Kind kind)
{
    lock(nodes);
    Node *node = find(nodes, path, false);
    if (node && node->kind != kind) {
        mark_deleted(nodes, node);
        node = NULL;
    }
    if (!node)
        node = add(nodes, path, kind);
    if (node)
        node->lookups++;
    unlock(nodes);
    return node;
}

void nodes_forget(Nodes *nodes, Node *node, uint64_t lookups)
{
    lock(nodes);
    node->lookups -= lookups;
    reap(nodes, node);
    unlock(nodes);
}

Look nodes_look(Nodes *nodes, Node *node)
{
    Look look = {.path = ""};
    lock(nodes);
    memcpy(look.path, node->path, strlen(node->path) + 1);
    look.kind = node->kind;
    look.is_deleted = node->is_deleted;
    look.has_times = node->has_times;
    look.has_mode = node->has_mode;
    look.has_owner = node->has_owner;
    look.user = node->user;
    look.group = node->group;
    look.changed = node->changed;
    look.read = node->read;
    look.renewed = node->renewed;
    look.mode = node->mode;
    look.number = node->number;
    unlock(nodes);
    return look;
}

bool nodes_is(Nodes *nodes, Node *node, const char *path)
{
    lock(nodes);
    bool is_so = !node->is_deleted && strcmp(node->path, path) == 0;
    unlock(nodes);
    return is_so;
}

static bool is_waited_for(const Node *node)
{
    return node->is_deleted && !node->is_replaced && node->files;
}

static bool is_hidden(Nodes *nodes, const char *path)
{
    Node *node = *chain_of(nodes, path);
    while (node && !(is_waited_for(node) && strcmp(node->path, path) == 0))
        node = node->next;
    return node != NULL;
}

bool nodes_is_hidden(Nodes *nodes, const char *path)
{
    lock(nodes);
    bool is_so = is_hidden(nodes, path);
    unlock(nodes);
    return is_so;
}

static void put_hidden(FILE *text, const Node *node)
{
    for (; node; node = node->next)
        if (is_waited_for(node))
            fprintf(text, "%s\n", node->path);
}

char *nodes_hidden(Nodes *nodes)
{
    char *names = NULL;
    size_t length = 0;
    FILE *text = open_memstream(&names, &length);
    if (!text)
        return NULL;
    fputc('\n', text);
    lock(nodes);
    for (unsigned at = 0; at < CHAINS && nodes->hidden > 0; at++)
        put_hidden(text, nodes->chains[at]);
    unlock(nodes);
    if (fclose(text) == 0)
        return names;
    free(names);
    return NULL;
}

bool nodes_wait_hidden(Nodes *nodes, const char *path, long milliseconds)
{
    long until = milliseconds_now() + milliseconds;
    lock(nodes);
    while (is_hidden(nodes, path) && milliseconds_now() < until)
        condition_wait(&nodes->gone, &nodes->mutex, TICK_MILLISECONDS);
    bool is_so = is_hidden(nodes, path);
    unlock(nodes);
    return is_so;
}

bool nodes_delete(Nodes *nodes, const char *path)
{
    lock(nodes);
    Node *node = find(nodes, path, false);
    bool is_open = node && node->files;
    if (node)
        mark_deleted(nodes, node);
    unlock(nodes);
    return is_open;
}

bool nodes_is_open(Nodes *nodes, const char *path)
{
    lock(nodes);
    Node *node = find(nodes, path, false);
    bool is_open = node && node->files;
    unlock(nodes);
    return is_open;
}

static bool has_files(const Node *node)
{
    return node->files != NULL;
}

static bool is_one_in(const Node *node, const char *folder, size_t length, bool (*is_one)(const Node *node))
{
    while (node && !(is_one(node) && strncmp(node->path, folder, length) == 0 && node->path[length] == '/'))
        node = node->next;
    return node != NULL;
}

static bool is_any_in(Nodes *nodes, const char *folder, bool (*is_one)(const Node *node))
{
    bool is_so = false;
    lock(nodes);
    for (unsigned at = 0; at < CHAINS && !is_so; at++)
        is_so = is_one_in(nodes->chains[at], folder, strlen(folder), is_one);
    unlock(nodes);
    return is_so;
}

bool nodes_is_open_in(Nodes *nodes, const char *folder)
{
    return is_any_in(nodes, folder, has_files);
}

bool nodes_is_hidden_in(Nodes *nodes, const char *folder)
{
    return is_any_in(nodes, folder, is_waited_for);
}

static void renew(Node *node)
{
    clock_gettime(CLOCK_REALTIME, &node->renewed);
}

static void move(Nodes *nodes, Node *node, char *path)
{
    renew(node);
    unlink_node(nodes, node);
    free(node->path);
    node->path = path;
    node->next = *chain_of(nodes, path);
    *chain_of(nodes, path) = node;
}

void nodes_rename(Nodes *nodes, const char *path, const char *to)
{
    char *copy = strdup(to);
    lock(nodes);
    Node *node = find(nodes, path, false), *replaced = find(nodes, to, false);
    if (replaced) {
        replaced->is_replaced = true;
        mark_deleted(nodes, replaced);
    }
    count_deletion(nodes, path);
    if (node && copy)
        move(nodes, node, copy);
    else if (node)
        mark_deleted(nodes, node);
    if (!node)
        free(copy);
    unlock(nodes);
}

void nodes_missed(Nodes *nodes, const char *path)
{
    lock(nodes);
    Node *node = find(nodes, path, false);
    if (node && is_kept(node)) {
        node->has_times = node->has_mode = node->has_owner = false;
        node->changed = node->read = node->renewed = nodes->begun;
        reap(nodes, node);
    }
    unlock(nodes);
}

void nodes_changed(Nodes *nodes, Node *node)
{
    struct timespec now;
    clock_gettime(CLOCK_REALTIME, &now);
    nodes_set_times(nodes, node, NULL, &now);
}

void nodes_set_times(Nodes *nodes, Node *node, const struct timespec *read, const struct timespec *changed)
{
    lock(nodes);
    renew(node);
    node->has_times = true;
    if (read)
        node->read = *read;
    if (changed)
        node->changed = *changed;
    unlock(nodes);
}

bool nodes_made(Nodes *nodes, Node *node, mode_t mode)
{
    lock(nodes);
    bool is_first = !node->has_mode;
    node->mode = is_first ? mode : node->mode;
    node->has_mode = true;
    unlock(nodes);
    return is_first;
}

void nodes_set_mode(Nodes *nodes, Node *node, mode_t mode)
{
    lock(nodes);
    renew(node);
    node->mode = mode;
    node->has_mode = true;
    unlock(nodes);
}

void nodes_set_owner(Nodes *nodes, Node *node, uid_t user, gid_t group)
{
    lock(nodes);
    bool was_given = node->has_owner;
    renew(node);
    node->has_owner = true;
    node->user = user != (uid_t)-1 ? user : was_given ? node->user : getuid();
    node->group = group != (gid_t)-1 ? group : was_given ? node->group : getgid();
    unlock(nodes);
}

uint64_t nodes_number(Nodes *nodes, const char *path)
{
    lock(nodes);
    Node *node = find(nodes, path, false);
    uint64_t number = node ? node->number : number_of(nodes, path);
    unlock(nodes);
    return number;
}

void nodes_hold(Nodes *nodes, Node *node)
{
    lock(nodes);
    node->holds++;
    unlock(nodes);
}

void nodes_let_go(Nodes *nodes, Node *node)
{
    lock(nodes);
    node->holds--;
    reap(nodes, node);
    unlock(nodes);
}

static void free_chain(Node *node)
{
    while (node) {
        Node *next = node->next;
        free(node->path);
        free(node);
        node = next;
    }
}

void nodes_close(Nodes *nodes)
{
    for (unsigned at = 0; at < CHAINS; at++)
        free_chain(nodes->chains[at]);
    pthread_cond_destroy(&nodes->gone);
    pthread_mutex_destroy(&nodes->mutex);
}
