/* The same requests, drawn from the bytes of libFuzzer, which looks at what of the drivers' code they reach. All sessions run in one process: before each the drivers' own variables are
 * what they were when the program began. A session that ends otherwise than with 0 ends the program. --requests=FILE names a file that gets the requests of each session before it runs. */
#include "session.h"

#include <stdlib.h>
#include <string.h>

/* The drivers' variables: c/build.sh has objcopy give their sections these names. */
extern unsigned char __start_kz_data[], __stop_kz_data[], __start_kz_bss[], __stop_kz_bss[];

static char lines[REQUESTS][LINE];
static const char *session[REQUESTS];
static const uint8_t *bytes;
static size_t left;
static const char *requests; /* the file's name */

int LLVMFuzzerInitialize(int *count, char ***words);
int LLVMFuzzerTestOneInput(const uint8_t *data, size_t size);

int LLVMFuzzerInitialize(int *count, char ***words)
{
    for (int at = 1; at < *count; at++)
        if (strncmp((*words)[at], "--requests=", 11) == 0)
            requests = (*words)[at] + 11;
    return 0;
}

static unsigned draw(unsigned limit)
{
    unsigned number = 0, room = 1;
    for (; room < limit && left > 0; room <<= 8, left--)
        number = number << 8 | *bytes++;
    return number % limit;
}

/* Byte by byte, past the zones that the address sanitizer has between variables. */
__attribute__((no_sanitize("address"))) static void copy(volatile unsigned char *to, const volatile unsigned char *from, size_t size)
{
    while (size-- > 0)
        *to++ = *from++;
}

__attribute__((no_sanitize("address"))) static void clear(volatile unsigned char *at, size_t size)
{
    while (size-- > 0)
        *at++ = 0;
}

static void renew_drivers(void)
{
    static unsigned char *first;
    size_t size = (size_t)(__stop_kz_data - __start_kz_data);
    if (!first) {
        first = malloc(size + 1);
        copy(first, __start_kz_data, size);
        return;
    }
    copy(__start_kz_data, first, size);
    clear(__start_kz_bss, (size_t)(__stop_kz_bss - __start_kz_bss));
}

int LLVMFuzzerTestOneInput(const uint8_t *data, size_t size)
{
    bytes = data;
    left = size;
    renew_drivers();
    size_t count = session_begin(lines);
    while (count < REQUESTS && left > 0)
        session_request(lines[count++], draw);
    for (size_t at = 0; at < count; at++)
        session[at] = lines[at];
    if (requests)
        session_write(requests, session, count);
    kz_is_quiet = 1;
    int status = kz_run(kz_drivers, kz_drivers_count, session, count);
    if (status != 0) {
        fprintf(stderr, "the session ends with %d\n", status);
        abort();
    }
    return 0;
}
