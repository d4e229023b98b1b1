/* Programs beside a driver: the author's own, compiled with c/user's headers. Each that was started is a process; its threads run beside the requests. */
#ifndef KZ_USER_PROGRAM_H
#define KZ_USER_PROGRAM_H

#include "host.h"
#include "core/client.h"
#include "filesystem/folder.h"
#include "kit/device.h"

#include <setjmp.h>

enum { KZ_ERROR_IO_PENDING = 997, KZ_ERROR_INVALID_HANDLE = 6, KZ_WAIT_ABANDONED = 128, KZ_WAIT_TIMEOUT = 258 };

/* Of c/build.sh's list. */
typedef struct {
    const char *name;
    int (*entry)(int count, void *words);
    bool is_wide; /* wmain */
} KzProgram;

typedef struct KzObject KzObject;
typedef struct KzUser KzUser;

/* A process. */
typedef struct KzProcess {
    struct KzProcess *next;
    const KzProgram *program;
    uint64_t id;
    char *words[16];
    WCHAR *wide[17];
    int count;
    char typed[4096]; /* on its console, and not read yet */
    KzObject *objects;
    KzUser *users; /* all threads that there were */
    unsigned threads, threads_made;
    bool is_over;
} KzProcess;

/* A thread of it. */
struct KzUser {
    KzUser *next;
    KzProcess *process;
    KzThread *thread;
    uint32_t (*start)(void *parameter); /* NULL: the program's main */
    void *parameter;
    uint32_t error, result;
    jmp_buf end;
    KzObject *object; /* its handle's, where it has one */
    const void *shared[16]; /* slim locks under which it reads, as far as there is room */
    bool has_ended;
};

typedef enum { KZU_THREAD, KZU_EVENT, KZU_SEMAPHORE, KZU_MUTEX, KZU_PORT, KZU_COMPLETION, KZU_FILE, KZU_FIND, KZU_SEARCH, KZU_DEVICE, KZU_KEY, KZU_PROCESS, KZU_SECTION, KZU_TRANSACTION } KzObjectKind;

/* A packet of a completion port. */
typedef struct KzPacket {
    struct KzPacket *next;
    uint32_t bytes, error;
    uintptr_t key;
    void *overlapped;
} KzPacket;

/* The beginning of an OVERLAPPED. */
typedef struct {
    uintptr_t status, bytes;
    uint64_t offset;
    void *event;
} KzOverlapped;

/* A message that is asked for, and that hasn't come yet. */
typedef struct KzAskedFor {
    struct KzAskedFor *next;
    uint8_t *room;
    uint32_t size;
    KzOverlapped *overlapped;
} KzAskedFor;

/* What a handle of a program's names. */
struct KzObject {
    KzObject *next;
    KzObjectKind kind;
    KzProcess *process;
    int32_t count, most; /* signalled, or how often it may be taken */
    bool is_manual;
    KzUser *owner; /* of a mutex, or the thread */
    PFLT_PORT port;
    KzAskedFor *asked;
    KzObject *completion; /* where its operations complete */
    uintptr_t key;
    KzPacket *packets;
    KzFile *file;
    KzDeviceFile device;
    uint64_t offset;
    bool is_append;
    struct KzFound *found;
    struct KzSearch *search;
    struct KzArea *area; /* a section's */
    bool may_write;
    HANDLE system;   /* a key's, of the kernel */
    PKTRANSACTION transaction;
    uint64_t other;  /* a process, and what was granted of it */
    ACCESS_MASK access;
};

extern const struct KzModule kz_program_module;
/* A process notify routine may refuse it, with a status of the kit's. */
uint32_t kz_start_program(const char *name, char **words, uint64_t *process, NTSTATUS *other);
uint32_t kz_type(const char *name, char **words);
void kz_end_programs(void);
KzProcess *kz_processes(void);
KzUser *kz_user(void); /* who calls */
KzUser *kz_new_user(KzProcess *process, uint32_t (*start)(void *), void *parameter);
/* Behind a call: a thread of a process that has ended goes no further. */
void kz_go_on_or_end(void);
/* Waits by the program's clock, or until its process ends; for ever with INFINITE. */
bool kz_user_waits(KzCan *can, void *what, uint32_t milliseconds, const char *text);

#endif
