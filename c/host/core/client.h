/* Clients: who makes requests, and who carries other work on. What runs is a client's own; the rest of the host is everybody's, and belongs to who is inside. */
#ifndef KZ_CORE_CLIENT_H
#define KZ_CORE_CLIENT_H

#include "host.h"
#include "core/create.h"
#include "core/place.h"

/* The driver's function is called for it: its code runs until it has returned, or makes a call. */
#define kz_let_driver(name, function) kz_let_function(name, (const void *)(uintptr_t)(function))
#define KZ_LINE (2 * KZ_BYTES + 64)

/* A reference to a context that a callback holds: by which call it took it, and where. No body if there is none. */
typedef struct {
    const void *body;
    KzPlace place;
} KzTaken;

enum { KZ_TAKEN = 64 };

/* The code of an exception, for the handler of that number in that function. */
typedef struct {
    const void *frame;
    int block, code;
} KzHandled;
enum { KZ_HANDLED = 16 };

/* Who has what is waited for, and would have to give it; NULL if that isn't known. */
typedef const KzClient *KzOwnerOf(const void *what);

struct KzClient {
    const char *name;
    KzPlace place;
    KzTaken taken[KZ_TAKEN]; /* those that its callbacks hold, as far as there is room */
    uint64_t places; /* how many callbacks it was in */
    KazdrinEvent busy;     /* the event that was refused with 34; event 0 if none was */
    uint64_t busy_number;  /* how many were in its way */
    uint64_t process, thread; /* who asks */
    bool has_pended; /* its last operation did, before it was over */
    PIRP top_level;
    int region, guarded; /* stand for its critical region, and for its guarded one */
    struct { /* rundown protections that it entered, and in which of its callbacks */
        const void *what;
        uint64_t callback;
        unsigned count;
    } entered[8];
    bool owes_wait; /* it set something and said that it waits next: it is at DISPATCH_LEVEL until then */
    KIRQL before_wait;
    uint64_t calls;  /* that its drivers' code has made */
    uint64_t moments; /* it is inside without a break in each */
    unsigned inside; /* how many calls of the host it is in; 0 in a driver's code */
    struct {
        KzTry *innermost;       /* of the blocks that its drivers' code is in */
        struct KzRaise *raise;  /* the exception whose filters are asked, or whose blocks are left */
        int why;                /* it goes on at a block's end, and where it goes then */
        void **back;
        bool is_taken;
        KzHandled handled[KZ_HANDLED];
        unsigned handled_count;
        const struct KzFault *resumes; /* with whose registers it is to go on */
        uint64_t fault[128];           /* room for the one that a signal's handler found last */
        long long given_up;            /* the instruction of an exception that nobody took: a crash */
    } tries;
    const void *stack; /* where that of a binary's code begins that was called last */
    unsigned number;
    bool is_known; /* what it touches inside the host, since it came in: that which is said, and no more */
    bool is_detaching; /* its request is a detach, and what that touches is said */
    bool is_paging; /* what it touches of caches is said, and it waits for nothing else */
    bool is_last; /* it goes on where no other can: what it expects is looked at */
    struct {
        char name[24];
        uint64_t handle;
        uint64_t operation; /* one more than that of the operation that is to give it, and waits still; 0: it is given */
    } names[32]; /* that its creates gave, by `as` */
    size_t names_count;
    const char *next_name; /* that its create is to give; NULL if it has none */
    uint64_t timeout; /* of its wait, in milliseconds; 0 if it has none */
    uint64_t until;   /* and when it is over, by the clock */
    KzThread *beside; /* the thread that it is, beside the requests; NULL for those of requests and of work items */
    char waits[160];  /* what it waits for */
    const char *stands; /* the point at which it waits; NULL if its wait is within a call */
    KzOwnerOf *owner_of; /* of its wait; NULL if nobody has that */
    const void *owned;
    bool names_owner; /* what it waits for says who has it */
    char says[4096]; /* its last answer as text, up to its reply */
    char reparsed[KZ_WHOLE_PATH]; /* the name that its last create was answered with, and what that asked for at its beginning */
    KzCreate reparsed_create;
    struct {
        PFLT_INSTANCE instance; /* that sends an operation down again, inside FltReissueSynchronousIo; NULL if none does */
        bool is_user;           /* and a program, or a request, asked for it */
    } reissues;
    const char *request; /* what it asks for, in words, for what is told; NULL if that isn't known */
    unsigned line_number; /* in its file; 0 if it isn't of one */
    char line[KZ_LINE];
    uint8_t bytes[KZ_BYTES];
    uint8_t room[KZ_BYTES + 64]; /* for the bytes of an answer, or of what is lent: whoever asks for them names it */
};

/* Whether a client can go on. It changes nothing. */
typedef bool KzCan(void *what);

/* What is done with an object or with memory, for who looks whether two clients are in order. */
typedef enum { KZT_TAKES, KZT_GIVES, KZT_READS, KZT_HAS_TAKEN_BACK } KzTouch;

/* How what others come to is touched. Two that add to it may do so in either order. */
typedef enum { KZU_READS, KZU_ADDS, KZU_WRITES } KzUse;

typedef struct {
    /* The client stands before what is named, in no call of the host: another may go on first. */
    void (*point)(const char *name, const void *from);
    /* It can't go on, and waits for what is named until it can. False: nobody brings that about, or its time is over. */
    bool (*wait)(KzCan *can, void *what, const char *text);
    void (*touch)(const void *object, size_t size, KzTouch how);
    /* What the client that is inside touches of the host, for who looks whether two clients' steps may change places; NULL is all of it. */
    void (*uses)(const void *object, KzUse how);
    /* It tried for that in vain, and doesn't wait: code that does so again and again lets others go first. */
    void (*looked)(const void *object, const void *from);
    /* Which of so many answers the call gets; 0 is the usual one. The name is for people. */
    unsigned (*choose)(unsigned count, KzChoice what, const char *name);
    /* A thread beside the requests begins; one goes on until it waits, where it can, beside a client that waits for nobody: in order, and before and behind a run of the explorer. */
    void (*begin)(KzThread *thread);
    bool (*let)(KzThread *thread);
    /* One client at a time is inside. */
    void (*lock)(void);
    void (*unlock)(void);
    void (*said)(const KzSaid *said);
    bool has_others; /* clients run beside one another, and work items beside them */
    bool has_pages;  /* memory may have pages of its own, and an access to them may be a signal */
    bool is_timeless; /* the clock stands still while clients make requests: when one comes doesn't say how late it is */
} KzScheduler;

#define KZ_CALL_FROM(name, from) __attribute__((cleanup(kz_end_call), unused)) unsigned kz_depth = kz_begin_call((name), (from))
#define KZ_CALL_OF(name) KZ_CALL_FROM((name), KZ_CALLER())
#define KZ_CALL() KZ_CALL_OF(__func__)
#define KZ_INSIDE_UNSAID() __attribute__((cleanup(kz_end_inside), unused)) unsigned kz_depth = kz_go_inside_unsaid()
#define KZ_INSIDE_FROM(name, from) __attribute__((cleanup(kz_end_call), unused)) unsigned kz_depth = kz_go_inside((name), (from))
#define KZ_INSIDE_OF(name) KZ_INSIDE_FROM((name), KZ_CALLER())
#define KZ_INSIDE() KZ_INSIDE_OF(__func__)
/* A call that touches what its arguments lead to, what is the client's own, and what it says beside that. */
#define KZ_INSIDE_ALONE() \
    KZ_INSIDE();          \
    kz_uses_own()
#define KZ_CALL_ALONE() \
    KZ_CALL();          \
    kz_uses_own()
/* And one that touches a driver's memory as the driver's own code would: what it meets there is the driver's doing. */
#define KZ_INSIDE_AS_DRIVER() \
    KZ_INSIDE_ALONE();        \
    kz_acts_as_driver()
unsigned kz_let_function(const char *name, const void *function);
/* What runs beside the requests goes on: a deferred procedure call, a work item. False if nothing could. */
bool kz_let_others(void);
/* The one that runs. */
extern _Thread_local KzClient *kz_me;
extern KzClient kz_first;
/* Of a table that grows for whoever comes to its end: so no client's own addresses depend on who came before it. */
void *kz_common_memory(size_t size);
void kz_new_client(KzClient *client, const char *name, unsigned number);
extern const KzScheduler kz_in_order;
extern const KzScheduler *kz_scheduler;
unsigned kz_begin_call(const char *name, const void *from);
unsigned kz_go_inside(const char *name, const void *from);
/* Inside, for what isn't a driver's own call. */
unsigned kz_go_inside_unsaid(void);
void kz_end_call(unsigned *depth);
void kz_end_inside(unsigned *depth);
/* A driver's code begins (host.h has kz_let_driver), and has returned: nobody is inside meanwhile. */
void kz_driver_returned(unsigned depth, const char *name);
/* The client steps out of the host for a moment. */
void kz_pause(const char *name);
/* The next wait is for what somebody has. */
void kz_waits_for_owner(KzOwnerOf *owner_of, const void *what, bool is_named);
bool kz_wait(KzCan *can, void *what, const char *format, ...) __attribute__((format(printf, 3, 4)));
/* The same in order as well: what runs beside goes on, and time passes as far as it is to; for ever with -1. */
/* It stands there until that is so: what comes before is over, and what comes after begins. */
void kz_pause_until(const char *name, KzCan *can, void *what, const char *text);
bool kz_wait_for(KzCan *can, void *what, int64_t milliseconds, const char *text);
bool kz_refuses(KzChoice what, const char *call);
/* From here on, until it leaves the host or another may go on, the client touches of what others come to only what it says. Where nobody says so it is taken to touch all of it, and so does what is called for more. */
void kz_uses_own(void);
/* How far the teardown of any instance is: the manager looks at that, and doesn't say at whose. */
void kz_uses_phases(void);
/* Both. */
void kz_uses_little(void);
void kz_uses_all(void);
void kz_acts_as_driver(void);
void kz_uses_bytes(const void *bytes, size_t size, KzUse how);
void kz_uses_object(const void *object, KzUse how); /* none where that is NULL */
void kz_uses_text(PCUNICODE_STRING text, KzUse how);
/* What a driver is answered there, which may be where others look. */
#define kz_gives(pointer) kz_uses_bytes((pointer), (pointer) ? sizeof *(pointer) : 0, KZU_WRITES)
bool kz_has_others(void);

#endif
