#include "fltUser.h"
