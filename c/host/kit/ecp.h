/* Extra create parameters: a list of them goes along with a create that a driver makes, or that it puts one into on its way down. */
#ifndef KZ_KIT_ECP_H
#define KZ_KIT_ECP_H

#include "host.h"

extern const struct KzModule kz_ecp_module;

#endif
