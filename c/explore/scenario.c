/* The runners of a scenario, and the one of work items. */
#include "explore.h"
#include "manager/work.h"

static KzClient clients[KZ_FIRST_THREAD]; /* by their numbers */

static Runner *new_runner(const char *name)
{
    Runner *one = &ex_runners[++ex->run.runners_count];
    one->client = &clients[ex->run.runners_count];
    kz_new_client(one->client, name, (unsigned)ex->run.runners_count);
    one->name = name;
    one->like = ex->run.runners_count;
    return one;
}

static void add(const KzScript *script)
{
    Runner *one = new_runner(script->name);
    one->script = script;
    one->client->is_last = script->is_finally;
    for (int at = ex->run.runners_count - 1; at >= 1; at--)
        if (kz_is_same_script(ex_runners[at].script, script))
            one->like = ex_runners[at].like;
}

/* Those that carry out work items: all alike, so that of those that haven't begun only the first may begin. */
static int add_workers(void)
{
    static char names[WORKERS][16] = {"work"};
    int first = ex->run.runners_count + 1;
    unsigned workers = ex->search.workers ? ex->search.workers : 1;
    if (first + (int)workers > KZ_FIRST_THREAD) {
        fprintf(stderr, "with these clients there is room for %d workers\n", KZ_FIRST_THREAD - first);
        return 2;
    }
    for (unsigned at = 0; at < workers; at++) {
        if (at)
            snprintf(names[at], sizeof names[at], "work.%u", at + 1);
        Runner *one = new_runner(names[at]);
        one->is_worker = true;
        one->like = first;
    }
    return 0;
}

int ex_read(const char *path)
{
    int status = kz_read_scenario(path, &ex->scenario);
    if (status)
        return status;
    for (size_t at = 0; at < ex->scenario.clients_count; at++)
        add(&ex->scenario.clients[at]);
    return add_workers();
}
