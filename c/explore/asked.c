/* Requests that are refused in each schedule before anything begins: of these nothing is tried, and whoever wrote them believes that it was. */
#include "explore.h"

/* It was made. is_done: it was carried out, or at least begun. */
void ex_note_answer(size_t request, uint32_t status, bool is_done)
{
    unsigned me = kz_me->number;
    ex->asked[me].made |= 1ULL << request;
    if (is_done)
        ex->asked[me].done |= 1ULL << request;
    else
        ex->asked[me].status[request] = status;
}

static const char *name_of(const char *client)
{
    return strcmp(client, "finally") == 0 ? "" : "client ";
}

void ex_put_refused(void)
{
    bool is_first = true;
    for (size_t at = 0; at < ex->scenario.clients_count; at++) {
        const KzScript *script = &ex->scenario.clients[at];
        uint64_t refused = ex->asked[at + 1].made & ~ex->asked[at + 1].done;
        for (size_t request = 0; request < script->count; request++) {
            if (!(refused >> request & 1))
                continue;
            printf("%s%s%s: refused in each schedule, with status %u: %s\n", is_first ? "\n" : "", name_of(script->name), script->name, ex->asked[at + 1].status[request], script->requests[request]);
            is_first = false;
        }
        if (refused && !ex->asked[at + 1].done)
            printf("%s%s: each of its requests is refused in each schedule, so nothing of it was tried\n", name_of(script->name), script->name);
    }
}

/* Nothing of any client was tried, or one names a handle that isn't there: such a search is no success. The last requests may be refused: they let go what may be there still. */
bool ex_is_idle(void)
{
    bool is_idle = true, is_absent = false;
    for (size_t at = 0; at < ex->scenario.clients_count; at++) {
        if (strcmp(ex->scenario.clients[at].name, "finally") == 0)
            continue;
        uint64_t refused = ex->asked[at + 1].made & ~ex->asked[at + 1].done;
        for (size_t request = 0; request < ex->scenario.clients[at].count; request++)
            is_absent |= (refused >> request & 1) && ex->asked[at + 1].status[request] == KZS_NO_HANDLE;
        is_idle &= refused && !ex->asked[at + 1].done;
    }
    return is_absent || (is_idle && ex->scenario.clients_count);
}

/* Of each client what was made and done, and the status of each request that wasn't. */
void ex_write_asked(FILE *to)
{
    for (unsigned client = 1; client <= RUNNERS; client++) {
        uint64_t refused = ex->asked[client].made & ~ex->asked[client].done;
        if (!ex->asked[client].made)
            continue;
        fprintf(to, "asked %u %llx %llx", client, (unsigned long long)ex->asked[client].made, (unsigned long long)ex->asked[client].done);
        for (unsigned request = 0; request < 64; request++)
            if (refused >> request & 1)
                fprintf(to, " %u:%u", request, ex->asked[client].status[request]);
        fprintf(to, "\n");
    }
}

/* Parts are added up. */
bool ex_read_asked(const char *line)
{
    unsigned client, request;
    uint32_t refused;
    unsigned long long made, done;
    int used;
    if (sscanf(line, "asked %u %llx %llx%n", &client, &made, &done, &used) != 3 || client > RUNNERS)
        return false;
    ex->asked[client].made |= made;
    ex->asked[client].done |= done;
    for (line += used; sscanf(line, " %u:%u%n", &request, &refused, &used) == 2 && request < 64; line += used)
        ex->asked[client].status[request] = refused;
    return true;
}
