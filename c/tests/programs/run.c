/* A run from a list of requests, the statuses both ways, and what DbgPrint writes. */
#include "core/status.h"

extern const KzDriver kz_drivers[];
extern const size_t kz_drivers_count;

/* Each status of the manager is one of the kit's and comes back as itself, but for the three that share theirs with another. */
static void statuses(void)
{
    for (uint32_t number = 0; number < 35; number++) {
        bool is_exact;
        uint32_t back = kz_number(kz_ntstatus(number), &is_exact);
        if (back != number || !is_exact)
            printf("%u comes back as %u\n", number, back);
    }
}

static void prints(void)
{
    UNICODE_STRING text = RTL_CONSTANT_STRING(L"counted");
    ULONG seven = 7;
    DbgPrint("%lu|%5u|%-6s|%ws|%wZ|%I64d|%llx|%08lx|%c|%%|%d|%p|%hu\n", seven, 8u, "ab", L"wide", &text, -5LL, 255LL, 0xabcu, 'q', -3, NULL, 12);
}

static void on_told(const char *id, const char *line)
{
    (void)line;
    printf("told: %s\n", id);
}

/* A second host behind the first one: what its requests brought about, as a program sees it. */
static void look(void)
{
    size_t length;
    kz_on_told(on_told);
    kz_open(kz_drivers, kz_drivers_count);
    kz_request("volume v0 uncached");
    kz_request("load passthrough");
    kz_request("attach passthrough v0 100 as p");
    kz_request("create v0 new a as h");
    kz_request("write h 0 6162");
    kz_request("read h 0 8");
    const uint8_t *bytes = kz_reply_bytes(&length);
    printf("%zu bytes, the first %c; callbacks %s\n", length, bytes[0], kz_reply_callbacks());
    kz_close();
}

int main(void)
{
    static const char *const requests[] = {"load passthrough", "attach 0 0 p 100", "create 0 new a", "close 0"};
    statuses();
    prints();
    int status = kz_run(kz_drivers, kz_drivers_count, requests, sizeof requests / sizeof requests[0]);
    printf("exit status %d\n", status);
    look();
    return status;
}
