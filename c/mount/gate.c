/* Who is inside. */
#include "gate.h"

#include "path.h"

void gates_open(Gates *gates)
{
    *gates = (Gates){0};
    pthread_mutex_init(&gates->mutex, NULL);
    condition_open(&gates->left);
}

unsigned gate_of(const char *path)
{
    return hash_of(path) % GATES;
}

static bool is_open(const Gate *gate, Passage passage)
{
    if (passage == ALONE)
        return !gate->is_closing && gate->creates == 0;
    return !gate->is_closing && gate->waiting == 0;
}

static void enter(Gate *gate, Passage passage)
{
    if (passage == ALONE)
        gate->is_closing = true;
    else
        gate->creates++;
}

Inside gate_enter(Gates *gates, unsigned number, Passage passage, IsUnwanted is_unwanted, void *whom)
{
    Gate *gate = &gates->gates[number];
    bool is_given_up = false;
    pthread_mutex_lock(&gates->mutex);
    if (passage == ALONE)
        gate->waiting++;
    while (!is_open(gate, passage) && !is_given_up) {
        condition_wait(&gates->left, &gates->mutex, TICK_MILLISECONDS);
        is_given_up = is_unwanted(whom);
    }
    if (passage == ALONE)
        gate->waiting--;
    if (!is_given_up)
        enter(gate, passage);
    else
        pthread_cond_broadcast(&gates->left);
    pthread_mutex_unlock(&gates->mutex);
    return (Inside){number, is_given_up ? AT_NO_GATE : passage};
}

void gate_leave(Gates *gates, Inside *inside)
{
    if (inside->passage == AT_NO_GATE)
        return;
    Gate *gate = &gates->gates[inside->number];
    pthread_mutex_lock(&gates->mutex);
    if (inside->passage == ALONE)
        gate->is_closing = false;
    else
        gate->creates--;
    pthread_cond_broadcast(&gates->left);
    pthread_mutex_unlock(&gates->mutex);
    inside->passage = AT_NO_GATE;
}

void gate_abandon(Gates *gates, unsigned number, Matter matter, bool is_one_more)
{
    pthread_mutex_lock(&gates->mutex);
    gates->gates[number].abandoned[matter] += is_one_more ? 1 : -1u;
    pthread_cond_broadcast(&gates->left);
    pthread_mutex_unlock(&gates->mutex);
}

bool gate_has_abandoned(Gates *gates, unsigned number, Matter matter)
{
    pthread_mutex_lock(&gates->mutex);
    bool is_so = gates->gates[number].abandoned[matter] > 0;
    pthread_mutex_unlock(&gates->mutex);
    return is_so;
}

bool gate_is_barred(Gates *gates, unsigned number, Matter matter, Passage passage, bool is_scarce)
{
    const Gate *gate = &gates->gates[number];
    pthread_mutex_lock(&gates->mutex);
    bool is_barred = (matter == NAMES && !is_open(gate, BESIDE_CREATES)) || ((is_scarce || passage == ALONE) && gate->abandoned[matter] > 0);
    pthread_mutex_unlock(&gates->mutex);
    return is_barred;
}

void gate_wait(Gates *gates)
{
    pthread_mutex_lock(&gates->mutex);
    condition_wait(&gates->left, &gates->mutex, TICK_MILLISECONDS);
    pthread_mutex_unlock(&gates->mutex);
}

void gates_close(Gates *gates)
{
    pthread_cond_destroy(&gates->left);
    pthread_mutex_destroy(&gates->mutex);
}
