/* Store buffers: what a client writes may be seen later by others than by itself, which is the one reordering of x64. A write that is late, and those of the same client behind it, wait in its buffer.
 * While the client runs, memory has its own view; where it stands, what others see is put there instead. Calls of the kit, interlocked calls, barriers, waits and a callback's end empty the buffer. */
#include "explore.h"

static bool may_be_late(void)
{
    return ex && ex->run.is_running && !ex->run.is_alone && kz_me != &kz_first && !kz_me->inside && ex_runners[kz_me->number].state == RUNNING;
}

static Buffer *mine(void)
{
    return &ex->run.buffers[kz_me->number];
}

static void swap_write(Buffer *buffer, unsigned at)
{
    uint64_t now = 0;
    memcpy(&now, buffer->writes[at].at, buffer->writes[at].size);
    memcpy(buffer->writes[at].at, &buffer->writes[at].other, buffer->writes[at].size);
    buffer->writes[at].other = now;
}

void ex_take_out(void)
{
    Buffer *buffer = mine();
    for (unsigned at = buffer->count; at > 0; at--)
        swap_write(buffer, at - 1);
}

void ex_put_in(void)
{
    Buffer *buffer = mine();
    for (unsigned at = 0; at < buffer->count; at++)
        swap_write(buffer, at);
}

bool ex_is_so(Asks asks, uint8_t sign, const char *text)
{
    ex_use_all();
    if (!ex_decide(2, asks, NULL, false))
        return false;
    ex->schedule.steps[ex->schedule.length++] = sign;
    if (ex->search.is_traced) {
        char line[TEXT];
        snprintf(line, sizeof line, "  %s   %s\n", kz_me->name, text);
        ex_trace_text(line);
    }
    return true;
}

static bool begins_late(void)
{
    bool is_asked = ex->run.late_used < ex->search.late || ex->search.replay || ex->run.is_guided;
    if (!is_asked || !ex_is_so(ANSWER_LATE, LATE, "others see its next write later"))
        return false;
    ex->run.late_used++;
    return true;
}

void ex_delay_write(void *address, size_t size, bool may_begin, const void *from)
{
    if (!may_be_late())
        return;
    Buffer *buffer = mine();
    if (ex_is_stack(address))
        return;
    if (buffer->count == LATE_WRITES || size > sizeof buffer->writes[0].other)
        ex_see_writes();
    else if (buffer->count || (may_begin && begins_late())) {
        buffer->writes[buffer->count].at = address;
        buffer->writes[buffer->count].size = size;
        buffer->writes[buffer->count].other = 0;
        ex_hooked = from;
        memcpy(&buffer->writes[buffer->count].other, address, size);
        ex_hooked = NULL;
        buffer->count++;
    }
    if (may_begin)
        buffer->last = address;
}

void ex_may_be_seen(const void *address)
{
    if (!may_be_late() || ex_is_stack(address))
        return;
    ex->run.has_late_reads |= mine()->last && mine()->last != address;
    if (mine()->count && ex_is_so(ANSWER_SEEN, SEEN, "others see what it wrote"))
        ex_see_writes();
}

void ex_see_writes(void)
{
    if (!ex)
        return;
    mine()->count = 0;
    mine()->last = NULL;
}

void ex_empty_buffers(void)
{
    for (int at = 0; at <= ex->run.most_runners; at++)
        ex->run.buffers[at].count = 0, ex->run.buffers[at].last = NULL;
    ex->run.late_used = 0;
}

uint64_t ex_buffers_hash(void)
{
    uint64_t hash = ex->run.late_used;
    for (int client = 1; client <= ex->run.runners_count; client++)
        for (unsigned at = 0; at < ex->run.buffers[client].count; at++)
            hash = ex_mixed(hash * 16 + (unsigned)client) + ex_mixed((uintptr_t)ex->run.buffers[client].writes[at].at) * 3 + ex_mixed(ex->run.buffers[client].writes[at].other + 1);
    return hash;
}
