/* Work items: whether one waits, and the next one runs. */
#ifndef KZ_MANAGER_WORK_H
#define KZ_MANAGER_WORK_H

#include "host.h"

bool kz_work(void);
bool kz_has_work(void);
extern const struct KzModule kz_work_module;

#endif
