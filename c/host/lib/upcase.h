/* The case of letters: Latin, Greek, Cyrillic and Armenian, each as one of 16 bits. */
#ifndef KZ_LIB_UPCASE_H
#define KZ_LIB_UPCASE_H

#include "host.h"

WCHAR kz_upcase(WCHAR letter);
WCHAR kz_downcase(WCHAR letter);

#endif
