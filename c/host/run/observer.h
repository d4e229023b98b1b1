/* Who looks on at a run: its expectations and its reports, and who has clients of his own. */
#ifndef KZ_RUN_OBSERVER_H
#define KZ_RUN_OBSERVER_H

#include "core/module.h"

extern const KzObserver kz_observer;

#endif
