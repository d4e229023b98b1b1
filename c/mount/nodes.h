/* The names that the kernel knows, and deleted files that are still open. */
#ifndef KZ_MOUNT_NODES_H
#define KZ_MOUNT_NODES_H

#include "wire/client.h"
#include "wait.h"

#include <sys/stat.h>

typedef struct File File;

typedef enum { NOTHING, A_FILE, A_FOLDER, A_LINK } Kind;

/* A file, a folder or a symbolic link. Its fields are the nodes' mutex's; its number for the kernel is its address. */
typedef struct Node {
    struct Node *next;
    char *path;
    uint64_t lookups; /* the kernel's */
    unsigned holds;   /* open files, and calls that look at it */
    Kind kind;
    bool is_deleted;
    bool is_replaced; /* another file has its name: that isn't hidden */
    bool has_times, has_mode, has_owner; /* as long as the mount: it isn't forgotten with the last look-up */
    struct timespec changed, read;
    struct timespec renewed; /* its bytes, or what is told of it: that is no time that a program may give */
    mode_t mode;
    uid_t user;
    gid_t group;
    uint64_t number; /* that programs see */
    File *files;     /* the open ones */
} Node;

#define CHAINS 4096

/* All threads share them, under the mutex. */
typedef struct {
    pthread_mutex_t mutex;
    pthread_cond_t gone; /* a deleted file was closed for the last time */
    Node *chains[CHAINS];
    uint64_t deletions[CHAINS]; /* how many names of the chain went: a name that comes back has another number */
    unsigned hidden; /* nodes of deleted files */
    struct timespec begun;
} Nodes;

/* A node as it was at one moment. */
typedef struct {
    char path[LONGEST_WIDE_PATH + 1];
    Kind kind;
    bool is_deleted, has_times, has_mode, has_owner;
    struct timespec changed, read, renewed;
    mode_t mode;
    uid_t user;
    gid_t group;
    uint64_t number;
} Look;

void nodes_open(Nodes *nodes);
/* The node of a name that was found; the kernel looks it up once more. NULL: no memory. */
Node *nodes_found(Nodes *nodes, const char *path, Kind kind);
void nodes_forget(Nodes *nodes, Node *node, uint64_t lookups);
Look nodes_look(Nodes *nodes, Node *node);
/* Whether the node still is the one of that name. */
bool nodes_is(Nodes *nodes, Node *node, const char *path);
/* A deleted file of that name is still open: the server refuses the name, and says no more of it. */
bool nodes_is_hidden(Nodes *nodes, const char *path);
/* Whether such a file lies in the folder, or in one below it. */
bool nodes_is_hidden_in(Nodes *nodes, const char *folder);
/* All such names, a line's end before and behind each; NULL: no memory. */
char *nodes_hidden(Nodes *nodes);
/* So long who wants such a name waits until the last close was answered. */
#define HIDDEN_MILLISECONDS 1000
/* Waits until it isn't, so long at most. */
bool nodes_wait_hidden(Nodes *nodes, const char *path, long milliseconds);
/* The name was deleted. Whether the file is still open. */
bool nodes_delete(Nodes *nodes, const char *path);
bool nodes_is_open(Nodes *nodes, const char *path);
/* Whether a file is open that lies in the folder, or in one below it. */
bool nodes_is_open_in(Nodes *nodes, const char *folder);
/* What had the one name has the other from now on; for want of memory it counts as deleted. */
void nodes_rename(Nodes *nodes, const char *path, const char *to);
/* The name isn't there any more: the times and the mode that were kept of it go. */
void nodes_missed(Nodes *nodes, const char *path);
void nodes_changed(Nodes *nodes, Node *node);
void nodes_set_times(Nodes *nodes, Node *node, const struct timespec *read, const struct timespec *changed);
/* The file was made with that mode: whether it is kept, for one that was kept before stays. */
bool nodes_made(Nodes *nodes, Node *node, mode_t mode);
void nodes_set_mode(Nodes *nodes, Node *node, mode_t mode);
/* Who owns it; -1 leaves that one as it is, or as it was given. */
void nodes_set_owner(Nodes *nodes, Node *node, uid_t user, gid_t group);
/* The number that programs see of a name. */
uint64_t nodes_number(Nodes *nodes, const char *path);
void nodes_hold(Nodes *nodes, Node *node);
void nodes_let_go(Nodes *nodes, Node *node);
void nodes_close(Nodes *nodes);

#endif
