/* Waits that end by themselves now and then, so that who waits can look whether it is to. */
#ifndef KZ_MOUNT_WAIT_H
#define KZ_MOUNT_WAIT_H

#include <pthread.h>
#include <stdbool.h>
#include <time.h>

#define TICK_MILLISECONDS 100

/* Whether who waits is to give up. */
typedef bool (*IsUnwanted)(void *whom);

void condition_open(pthread_cond_t *condition);
/* Waits so long at most. */
void condition_wait(pthread_cond_t *condition, pthread_mutex_t *mutex, long milliseconds);
long milliseconds_now(void);

#endif
