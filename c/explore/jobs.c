/* A search spread over the processors of one machine: each part is a process of its own, whose results are added up. */
#include "explore.h"

#include <errno.h>
#include <signal.h>
#include <stdlib.h>
#include <sys/wait.h>
#include <unistd.h>

static void name_part(char *room, size_t size, const char *path, unsigned part)
{
    snprintf(room, size, "%s.%u", path, part);
}

/* What one part of a search is told: to stop, and to store what it has. */
static volatile pid_t parts[256];

static void stop_parts(int signal)
{
    (void)signal;
    for (int part = 0; part < 256; part++)
        if (parts[part] > 0)
            kill(parts[part], SIGTERM);
}

static void stop(int signal)
{
    (void)signal;
    ex->total.is_interrupted = true;
}

/* In the child. A terminal's Ctrl-C is for all of them: the first process says it to each. */
static void search_part(unsigned part, unsigned jobs, const char *folder, const char *resume, void (*search)(void))
{
    char path[4200];
    ex->search.shard = part;
    ex->search.shards = jobs;
    ex->total.is_silent = true;
    ex_watch_faults();
    signal(SIGINT, SIG_IGN);
    signal(SIGTERM, stop);
    if (resume) {
        name_part(ex->total.resume_path, sizeof ex->total.resume_path, resume, part);
        if (ex_resume(ex->total.resume_path) != 0)
            _exit(3);
    }
    if (!ex->total.is_whole)
        search();
    name_part(path, sizeof path, folder, part);
    int status = ex_save(path);
    _exit(ex->total.is_unwritten ? 3 : status);
}

/* How each part ended: those that stored what they found are put in front. How many they are. */
static unsigned wait_for_parts(unsigned jobs, char **paths)
{
    unsigned stored = 0;
    for (unsigned part = 0; part < jobs; part++) {
        int ended = 0;
        while (parts[part] > 0 && waitpid(parts[part], &ended, 0) < 0 && errno == EINTR)
            ;
        bool is_stored = parts[part] > 0 && WIFEXITED(ended) && WEXITSTATUS(ended) == 0;
        parts[part] = 0;
        if (is_stored) {
            char *path = paths[stored];
            paths[stored++] = paths[part];
            paths[part] = path;
        } else if (WIFSIGNALED(ended)) {
            fprintf(stderr, "part %u/%u was ended by signal %d: what it found is lost\n", part, jobs, WTERMSIG(ended));
        } else {
            fprintf(stderr, "part %u/%u couldn't be searched or stored: what it found is lost\n", part, jobs);
        }
    }
    return stored;
}

/* 0; 3 where no part could be searched; 4 where one is missing, or isn't whole: then what the others found is there all the same. */
int ex_search_jobs(unsigned jobs, const char *resume, void (*search)(void))
{
    char folder[] = "/tmp/kazdrin-jobs.XXXXXX", base[64], *paths[256];
    if (!mkdtemp(folder)) {
        fprintf(stderr, "%s: can't be made\n", folder);
        return 3;
    }
    snprintf(base, sizeof base, "%s/part", folder);
    fflush(stdout);
    for (unsigned part = 0; part < jobs; part++) {
        paths[part] = ex_map(128);
        name_part(paths[part], 128, base, part);
        parts[part] = fork();
        if (parts[part] == 0)
            search_part(part, jobs, base, resume, search);
    }
    signal(SIGINT, stop_parts);
    signal(SIGTERM, stop_parts);
    unsigned stored = wait_for_parts(jobs, paths);
    int status = stored ? ex_merge(paths, (int)stored) : 3;
    for (unsigned part = 0; part < jobs; part++)
        unlink(paths[part]);
    rmdir(folder);
    return status;
}
