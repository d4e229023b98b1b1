/* A scenario: what is set up, and clients that run beside one another. */
#ifndef KZ_RUN_SCENARIO_H
#define KZ_RUN_SCENARIO_H

#include <stdbool.h>
#include <stddef.h>

enum { KZ_CLIENTS = 12, KZ_REQUESTS = 64 };

typedef struct {
    char name[32];
    bool is_finally;
    char *requests[KZ_REQUESTS];
    size_t count;
} KzScript;

typedef struct {
    char **setup;
    size_t setup_count;
    KzScript clients[KZ_CLIENTS];
    size_t clients_count;
} KzScenario;

/* 0, or what is wrong was said. */
int kz_read_scenario(const char *path, KzScenario *scenario);
bool kz_is_same_script(const KzScript *a, const KzScript *b);
void kz_free_scenario(KzScenario *scenario);

#endif
