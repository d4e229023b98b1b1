/* The connections of a mount. Each has one request at a time, and is used by whoever took it. Some are no file's home, so that look-ups pass where every home waits.
 *
 * A line whose request was abandoned waits for the reply, and is the home of its files still. A further one is dialed in its place, as long as there are places. */
#ifndef KZ_MOUNT_POOL_H
#define KZ_MOUNT_POOL_H

#include "connection.h"

typedef struct Line Line;

/* At most so many, for the server has 32, and `fltc` needs one. */
#define MOST_LINES 31

/* What is done on a line once it is free: by whoever sends it, or by a thread of its own. */
typedef struct Errand {
    struct Errand *next;
    void (*run)(struct Errand *errand, Line *line);
} Errand;

/* A connection in the pool. All but the connection itself is the pool's mutex's. */
struct Line {
    Connection connection;
    bool is_busy, is_reserved;
    bool is_abandoned;   /* whoever has it waits for a reply that nobody wants any more */
    unsigned generation; /* how often it was lost: a handle is of one generation */
    unsigned files;      /* whose home it is */
    Errand *errands;
};

/* All threads share it, under its mutex. */
typedef struct {
    pthread_mutex_t mutex;
    pthread_cond_t freed;
    Line *lines;
    unsigned count;    /* lines that there are to be, beside the abandoned ones */
    unsigned kept;     /* so many free homes are left by whoever asks for a name, for whoever reads */
    unsigned settling; /* threads that wait for replies which nobody wants any more, or do errands */
    bool is_ending;
    const char *path;
    Server server; /* as it was at the start */
} Pool;

/* What is wanted: a home, for a while or alone; or any line, one that may be a home, one of the last of those. */
typedef struct {
    Line *home;
    unsigned generation;
    bool is_home_alone, may_be_reserved, may_be_last;
} Want;

/* Dials all connections: 0, or the errno of the first that failed. */
int pool_open(Pool *pool, const char *path, unsigned count, unsigned reserved);
/* 0; ENOTCONN where the server is gone, EIO where the home is, EINTR where nobody wants it any more */
int pool_take(Pool *pool, Want want, IsUnwanted is_unwanted, void *whom, Line **line);
void pool_give(Pool *pool, Line *line);
/* Runs it on the line: now where that is free, else once it is. */
void pool_send(Pool *pool, Line *line, Errand *errand);
/* The line's connection failed: dials anew where the server is still there. Whoever has the line still has to give it back. */
void pool_lost(Pool *pool, Line *line);
void pool_count_file(Pool *pool, Line *line, unsigned generation, bool is_one_more);
unsigned pool_generation(Pool *pool, Line *line);
/* Whether not all abandoned lines could be replaced. */
bool pool_is_scarce(Pool *pool);
/* Whether it is the home of a file. */
bool pool_is_home(Pool *pool, const Line *line);
/* The line's request is abandoned: a thread begins to wait for its reply. */
void pool_abandon(Pool *pool, Line *line);
/* Dials a further line in its place, where there is one. */
void pool_replace(Pool *pool, Line *line);
/* The line's request lasts, and no program waits for it: the same by whoever has it. */
void pool_bypass(Pool *pool, Line *line);
/* The thread that settles has ended. */
void pool_settle(Pool *pool);
/* Ends all connections, waits for the threads that settle, and frees all. */
void pool_close(Pool *pool);

#endif
