/* Who has which connection. */
#include "pool.h"

#include <errno.h>
#include <stdlib.h>
#include <sys/socket.h>
#include <unistd.h>

/* So long an operation waits for the home of its file before it opens the file once more elsewhere. */
#define PATIENCE_MILLISECONDS 50
/* So often, and so many milliseconds apart, a server is dialed that has no place. */
#define TRIALS 3
#define PAUSE_MILLISECONDS 100
/* Free homes that looks and creates leave; one where there are few. */
#define KEPT 2

static void lock(Pool *pool)
{
    pthread_mutex_lock(&pool->mutex);
}

static void unlock(Pool *pool)
{
    pthread_mutex_unlock(&pool->mutex);
}

static bool is_gone(const Line *line)
{
    return line->connection.socket == -1;
}

static void lay_out(Pool *pool, unsigned reserved)
{
    for (unsigned at = 0; at < MOST_LINES; at++) {
        pool->lines[at].connection.socket = -1;
        pool->lines[at].is_reserved = at >= pool->count - reserved && at < pool->count;
    }
}

static int dial_all(Pool *pool)
{
    int error = 0;
    for (unsigned at = 0; at < pool->count && error == 0; at++)
        error = connection_dial(&pool->lines[at].connection, pool->path, &pool->server);
    return error;
}

static int greet_all(Pool *pool)
{
    int error = 0;
    for (unsigned at = 0; at < pool->count && error == 0; at++)
        error = connection_greet(&pool->lines[at].connection);
    return error;
}

int pool_open(Pool *pool, const char *path, unsigned count, unsigned reserved)
{
    *pool = (Pool){.lines = calloc(MOST_LINES, sizeof(Line)), .count = count, .path = path, .server = {.pid = -1, .process = -1}};
    pool->kept = count - reserved > KEPT + 1 ? KEPT : 1;
    if (!pool->lines)
        return ENOMEM;
    pthread_mutex_init(&pool->mutex, NULL);
    condition_open(&pool->freed);
    lay_out(pool, reserved);
    int error = dial_all(pool);
    if (error == 0)
        error = greet_all(pool);
    pool->server.is_known = true;
    if (error != 0)
        pool_close(pool);
    return error;
}

static bool is_free(const Line *line)
{
    return !line->is_busy && !is_gone(line);
}

/* Of two free lines: one that is no home, where that may be, and else the one with the fewest files. */
static bool is_better(const Line *line, const Line *than)
{
    if (!than || line->is_reserved != than->is_reserved)
        return !than || line->is_reserved;
    return line->files < than->files;
}

static unsigned count_free_homes(const Pool *pool)
{
    unsigned count = 0;
    for (unsigned at = 0; at < MOST_LINES; at++)
        count += is_free(&pool->lines[at]) && !pool->lines[at].is_reserved;
    return count;
}

static Line *find_free(Pool *pool, const Want *want)
{
    Line *best = NULL;
    bool may_be_home = want->may_be_last || count_free_homes(pool) > pool->kept;
    for (unsigned at = 0; at < MOST_LINES; at++) {
        Line *line = &pool->lines[at];
        if (is_free(line) && (line->is_reserved ? want->may_be_reserved : may_be_home) && is_better(line, best))
            best = line;
    }
    return best;
}

static bool is_all_gone(const Pool *pool)
{
    for (unsigned at = 0; at < MOST_LINES; at++)
        if (!is_gone(&pool->lines[at]))
            return false;
    return true;
}

/* One try: 0 and a line, or EAGAIN, or why there will be none. */
static int try_one(Pool *pool, const Want *want, bool is_patient, Line **line)
{
    *line = NULL;
    if (want->home && (is_gone(want->home) || want->home->generation != want->generation))
        return EIO;
    if (want->home && !want->home->is_busy)
        *line = want->home;
    else if (!want->home || ((!is_patient || want->home->is_abandoned) && !want->is_home_alone))
        *line = find_free(pool, want);
    if (*line) {
        (*line)->is_busy = true;
        return 0;
    }
    return !want->home && is_all_gone(pool) ? ENOTCONN : EAGAIN;
}

int pool_take(Pool *pool, Want want, IsUnwanted is_unwanted, void *whom, Line **line)
{
    lock(pool);
    int error = try_one(pool, &want, true, line);
    long until = error == EAGAIN ? milliseconds_now() + PATIENCE_MILLISECONDS : 0;
    while (error == EAGAIN) {
        bool is_patient = milliseconds_now() < until;
        condition_wait(&pool->freed, &pool->mutex, is_patient ? PATIENCE_MILLISECONDS : TICK_MILLISECONDS);
        error = try_one(pool, &want, is_patient, line);
        if (error == EAGAIN && is_unwanted(whom))
            error = EINTR;
    }
    unlock(pool);
    return error;
}

static void hang_up(Line *line)
{
    connection_close(&line->connection);
    line->generation++;
    line->files = 0;
}

/* Lines that aren't abandoned. */
static unsigned count_live(const Pool *pool)
{
    unsigned count = 0;
    for (unsigned at = 0; at < MOST_LINES; at++)
        count += !is_gone(&pool->lines[at]) && !pool->lines[at].is_abandoned;
    return count;
}

/* A line that is one too many ends once no file lives on it. */
static void retire(Pool *pool, Line *line)
{
    line->is_abandoned = false;
    if (line->files == 0 && !line->is_reserved && count_live(pool) > pool->count)
        hang_up(line);
}

static Errand *next_errand(Line *line)
{
    Errand *errand = line->errands;
    if (errand)
        line->errands = errand->next;
    return errand;
}

/* Those that come meanwhile too; then the line is free. */
static void run_errands(Pool *pool, Line *line)
{
    lock(pool);
    for (Errand *errand = next_errand(line); errand; errand = next_errand(line)) {
        unlock(pool);
        errand->run(errand, line);
        lock(pool);
    }
    line->is_busy = false;
    retire(pool, line);
    pthread_cond_broadcast(&pool->freed);
    unlock(pool);
}

/* A line and its pool, for a thread. */
typedef struct {
    Pool *pool;
    Line *line;
} Errands;

static void *run_in_thread(void *given)
{
    Errands errands = *(Errands *)given;
    free(given);
    run_errands(errands.pool, errands.line);
    pool_settle(errands.pool);
    return NULL;
}

/* The server may hold them: so whoever gives the line back doesn't wait for them. False: no thread is to be had. */
static bool begin_errands(Pool *pool, Line *line)
{
    pthread_t thread;
    Errands *errands = malloc(sizeof *errands);
    if (!errands)
        return false;
    *errands = (Errands){pool, line};
    lock(pool);
    pool->settling++;
    unlock(pool);
    if (pthread_create(&thread, NULL, run_in_thread, errands) == 0) {
        pthread_detach(thread);
        return true;
    }
    pool_settle(pool);
    free(errands);
    return false;
}

void pool_give(Pool *pool, Line *line)
{
    lock(pool);
    bool has_errands = line->errands != NULL;
    unlock(pool);
    if (!has_errands || !begin_errands(pool, line))
        run_errands(pool, line);
}

void pool_send(Pool *pool, Line *line, Errand *errand)
{
    lock(pool);
    errand->next = line->errands;
    line->errands = errand;
    bool is_mine = !line->is_busy;
    line->is_busy = true;
    unlock(pool);
    if (is_mine)
        run_errands(pool, line);
}

/* The others are looked at, so that whoever comes next needn't wait for an answer that can't come. */
static void look_at_others(Pool *pool)
{
    for (unsigned at = 0; at < MOST_LINES; at++)
        if (is_free(&pool->lines[at]) && !connection_is_alive(&pool->lines[at].connection))
            hang_up(&pool->lines[at]);
    pthread_cond_broadcast(&pool->freed);
}

/* A server may need a moment to see that a place is free again. */
static bool dial(Pool *pool, Connection *fresh)
{
    int error = ECONNREFUSED;
    for (unsigned trial = 0; trial < TRIALS && error == ECONNREFUSED; trial++) {
        if (trial > 0)
            usleep(PAUSE_MILLISECONDS * 1000);
        if (connection_dial(fresh, pool->path, &pool->server) != 0)
            return false;
        error = connection_greet(fresh);
    }
    return error == 0;
}

/* No lock is held while the server is dialed. */
static void dial_anew(Pool *pool, Line *line)
{
    Connection fresh = {.number = line->connection.number};
    if (!dial(pool, &fresh))
        return;
    lock(pool);
    line->connection.socket = fresh.socket;
    line->connection.number = fresh.number;
    unlock(pool);
}

void pool_lost(Pool *pool, Line *line)
{
    lock(pool);
    hang_up(line);
    look_at_others(pool);
    bool is_ending = pool->is_ending;
    unlock(pool);
    if (!is_ending)
        dial_anew(pool, line);
}

void pool_count_file(Pool *pool, Line *line, unsigned generation, bool is_one_more)
{
    lock(pool);
    if (line->generation == generation)
        line->files += is_one_more ? 1 : -1u;
    unlock(pool);
}

unsigned pool_generation(Pool *pool, Line *line)
{
    lock(pool);
    unsigned generation = line->generation;
    unlock(pool);
    return generation;
}

bool pool_is_scarce(Pool *pool)
{
    lock(pool);
    bool is_so = count_live(pool) < pool->count;
    unlock(pool);
    return is_so;
}

bool pool_is_home(Pool *pool, const Line *line)
{
    lock(pool);
    bool is_so = line->files > 0;
    unlock(pool);
    return is_so;
}

void pool_abandon(Pool *pool, Line *line)
{
    lock(pool);
    line->is_abandoned = true;
    pool->settling++;
    unlock(pool);
}

/* A place that nobody has, which is the caller's from then on. */
static Line *find_place(Pool *pool)
{
    Line *place = NULL;
    for (unsigned at = 0; at < MOST_LINES && !place; at++)
        if (is_gone(&pool->lines[at]) && !pool->lines[at].is_busy)
            place = &pool->lines[at];
    if (place)
        place->is_busy = true;
    return place;
}

void pool_replace(Pool *pool, Line *line)
{
    lock(pool);
    Line *place = pool->is_ending ? NULL : find_place(pool);
    unlock(pool);
    if (!place)
        return;
    dial_anew(pool, place);
    lock(pool);
    if (!is_gone(place)) {
        place->is_reserved = line->is_reserved;
        line->is_reserved = false;
    }
    unlock(pool);
    pool_give(pool, place);
}

void pool_bypass(Pool *pool, Line *line)
{
    lock(pool);
    bool is_first = !line->is_abandoned;
    line->is_abandoned = true;
    unlock(pool);
    if (is_first)
        pool_replace(pool, line);
}

void pool_settle(Pool *pool)
{
    lock(pool);
    pool->settling--;
    pthread_cond_broadcast(&pool->freed);
    unlock(pool);
}

static void shut_down(Pool *pool)
{
    for (unsigned at = 0; at < MOST_LINES; at++)
        if (!is_gone(&pool->lines[at]))
            shutdown(pool->lines[at].connection.socket, SHUT_RDWR);
}

void pool_close(Pool *pool)
{
    lock(pool);
    pool->is_ending = true;
    shut_down(pool);
    while (pool->settling > 0)
        pthread_cond_wait(&pool->freed, &pool->mutex);
    unlock(pool);
    for (unsigned at = 0; at < MOST_LINES; at++)
        connection_close(&pool->lines[at].connection);
    server_forget(&pool->server);
    pthread_cond_destroy(&pool->freed);
    pthread_mutex_destroy(&pool->mutex);
    free(pool->lines);
}
