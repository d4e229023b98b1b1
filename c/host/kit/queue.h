/* A filter's queue of operations that it pended: the filter's own callbacks keep it. */
#ifndef KZ_KIT_QUEUE_H
#define KZ_KIT_QUEUE_H

#include "host.h"

void kz_leave_queue(PFLT_CALLBACK_DATA data);

#endif
