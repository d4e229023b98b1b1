/* Letters as bytes: in UTF-8, and in the code page 1252. */
#ifndef KZ_LIB_ENCODING_H
#define KZ_LIB_ENCODING_H

#include "host.h"

/* One that the code page lacks is a question mark. */
CHAR kz_to_code_page(WCHAR letter);
WCHAR kz_from_code_page(CHAR byte);

#endif
