/* The calls of the archive, one after another: a filter's callbacks are answered in place, and each line says what the manager told. */
#include "kazdrin.h"

#include <stdio.h>
#include <string.h>

static Kazdrin kazdrin;
static KazdrinTold told;
static uint8_t room[64];

static uint32_t step(KazdrinEvent event, const char *text)
{
    return kazdrin_step(&kazdrin, &event, (const uint8_t *)text, strlen(text), &told, room, sizeof room);
}

/* What the filter says to an operation on its way down. */
static KazdrinEvent verdict(uint32_t operation)
{
    switch (operation) {
    case KZE_CREATE:
        return (KazdrinEvent){.mode = KZV_WITH_CALLBACK, .number = 7};
    case KZE_READ:
        return (KazdrinEvent){.mode = KZV_SYNCHRONIZE, .number = 9};
    default:
        return (KazdrinEvent){.mode = KZV_NO_CALLBACK};
    }
}

/* What the worker was lent: the operation, and its bytes. */
static void look(const char *name, uint8_t flag)
{
    KazdrinData data;
    uint32_t status = kazdrin_lent(&kazdrin, &(KazdrinEvent){.flag = flag}, &data, room, sizeof room);
    printf("  %s %u: lent %u, operation %u, offset %llu, bytes '%.*s'\n", name, status, data.lent, data.operation, (unsigned long long)data.offset, (int)data.length, (char *)room);
}

/* The filter looks at a write and writes something else; a change to another operation is refused. */
static void change_write(void)
{
    look("asked", 0);
    uint32_t other = kazdrin_change(&kazdrin, &(KazdrinEvent){.event = KZE_FLUSH}, (const uint8_t *)"", 0);
    uint32_t same = kazdrin_change(&kazdrin, &(KazdrinEvent){.event = KZE_WRITE}, (const uint8_t *)"HELLO", 5);
    printf("  change %u, then %u\n", other, same);
}

/* The filter puts other bytes in the answer to a read. */
static void change_read(void)
{
    look("answered", 1);
    printf("  answer %u\n", kazdrin_answer(&kazdrin, &(KazdrinEvent){.offset = 2, .flag = 1}, (const uint8_t *)"??", 2));
}

/* What the manager counts. */
static void count(const char *name, uint32_t status)
{
    KazdrinCounts counts;
    uint32_t read = kazdrin_counts(&kazdrin, &(KazdrinEvent){0}, &counts);
    printf("  %s %u; counts %u: born %llu, cleaned %llu, leaks %llu, held %llu\n", name, status, read, (unsigned long long)counts.born,
           (unsigned long long)counts.cleaned, (unsigned long long)counts.leaks, (unsigned long long)counts.held);
}

/* The filter allocates a context and gives its reference up again. */
static void make_context(void)
{
    count("allocate", step((KazdrinEvent){.event = KZE_ALLOCATE, .kind = 2}, "body"));
    uint32_t first = kazdrin_held_at(&kazdrin, &(KazdrinEvent){.len = 0}, &told);
    printf("  held at 0: %u, has %u, slot %u, generation %u\n", first, told.has, told.slot, told.generation);
    uint32_t second = kazdrin_held_at(&kazdrin, &(KazdrinEvent){.len = 1}, &told);
    printf("  held at 1: %u, has %u\n", second, told.has);
    count("release", step((KazdrinEvent){.event = KZE_RELEASE, .slot = 0, .generation = 0}, ""));
}

/* An idle worker cleans it up. */
static void clean_up(void)
{
    uint32_t status = step((KazdrinEvent){.event = KZE_TAKE_DUE}, "");
    printf("due %u: has %u, kind %u, body '%.*s'\n", status, told.has, told.kind, (int)told.length, (char *)room);
    count("cleaned", step((KazdrinEvent){.event = KZE_CLEANED}, ""));
}

/* Takes an operation to its end, and collects its answer. */
static void go(const char *name, KazdrinEvent asked, const char *text, KazdrinEvent down)
{
    uint32_t status = step(asked, text);
    if (status != 0) {
        printf("%s: refused with %u\n", name, status);
        return;
    }
    KazdrinEvent turn = {.operation = told.operation};
    printf("%s: operation %llu\n", name, (unsigned long long)told.operation);
    while (kazdrin_next(&kazdrin, &turn, &told) == 0 && told.action != KZA_DONE) {
        if (told.action == KZA_PRE) {
            if (asked.event == KZE_WRITE)
                change_write();
            if (asked.event == KZE_CREATE && down.mode == KZV_WITH_CALLBACK)
                make_context();
            printf("  pre of instance %u: %u\n", told.instance, kazdrin_pre_returned(&kazdrin, &down));
        } else if (told.action == KZA_BASE) {
            printf("  base: %u\n", kazdrin_base(&kazdrin, &turn));
        } else if (told.action == KZA_POST) {
            printf("  post of instance %u with %llu\n", told.instance, (unsigned long long)told.number);
            if (asked.event == KZE_READ)
                change_read();
            printf("  returned");
            printf(": %u\n", kazdrin_post_returned(&kazdrin, &(KazdrinEvent){.mode = KZV_FINISHED}));
        }
    }
    status = step((KazdrinEvent){.event = KZE_COLLECT, .operation = turn.operation}, "");
    printf("  collected %u: status %u, information %llu, bytes '%.*s'\n", status, told.status, (unsigned long long)told.information, (int)told.length, (char *)room);
}

static void file(const char *name, KazdrinEvent asked, const char *text)
{
    go(name, asked, text, verdict(asked.event));
}

int main(void)
{
    printf("closed: %u\n", step((KazdrinEvent){.event = KZE_MOUNT}, "disk"));
    printf("closed: %u, %u\n", kazdrin_counts(&kazdrin, &(KazdrinEvent){0}, &(KazdrinCounts){0}), kazdrin_held_at(&kazdrin, &(KazdrinEvent){0}, &told));
    printf("open: %u\n", kazdrin_open(&kazdrin));
    printf("open again: %u\n", kazdrin_open(&kazdrin));
    printf("mount: %u\n", step((KazdrinEvent){.event = KZE_MOUNT}, "disk"));
    printf("mount again: %u\n", step((KazdrinEvent){.event = KZE_MOUNT}, "disk"));
    printf("no name: %u\n", step((KazdrinEvent){.event = KZE_MOUNT}, ""));
    printf("no event: %u\n", step((KazdrinEvent){.event = 99}, ""));
    printf("no callback: %u\n", step((KazdrinEvent){.event = KZE_SETUP_DONE, .flag = 1}, ""));
    printf("no worker: %u\n", step((KazdrinEvent){.event = KZE_SETUP_DONE, .worker = 200}, ""));
    printf("register: %u\n", step((KazdrinEvent){.event = KZE_REGISTER, .pre = 1 + 2 + 4 + 512, .post = 1 + 2, .contexts = 4, .unload = 1}, "watch"));
    KazdrinEvent attach = {0};
    uint32_t status = kazdrin_attach(&kazdrin, &attach, (const uint8_t *)"watch", 5, (const uint8_t *)"tall", 4, &told, room, sizeof room);
    printf("no altitude: %u\n", status);
    status = kazdrin_attach(&kazdrin, &attach, (const uint8_t *)"watch", 5, (const uint8_t *)"100.5", 5, &told, room, sizeof room);
    printf("attach: %u, instance %u\n", status, told.instance);
    printf("setup done: %u\n", step((KazdrinEvent){.event = KZE_SETUP_DONE, .flag = 1}, ""));
    file("create", (KazdrinEvent){.event = KZE_CREATE, .mode = 1}, "report");
    clean_up();
    file("write", (KazdrinEvent){.event = KZE_WRITE}, "hello");
    file("read", (KazdrinEvent){.event = KZE_READ, .len = 16}, "");
    go("denied", (KazdrinEvent){.event = KZE_CREATE, .mode = 2}, "secret", (KazdrinEvent){.mode = KZV_COMPLETE, .status = 17});
    go("no verdict", (KazdrinEvent){.event = KZE_LIST}, "", (KazdrinEvent){.mode = 77});
    file("cleanup", (KazdrinEvent){.event = KZE_CLEANUP}, "");
    file("close", (KazdrinEvent){.event = KZE_CLOSE}, "");
    file("gone", (KazdrinEvent){.event = KZE_READ, .len = 1}, "");
    kazdrin_close(&kazdrin);
    printf("closed: %u\n", step((KazdrinEvent){.event = KZE_MOUNT}, "disk"));
    return 0;
}
