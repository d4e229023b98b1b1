/* Operations, as the layers share them: what one has, and how it is asked for. */
#ifndef KZ_CORE_OP_H
#define KZ_CORE_OP_H

#include "host.h"
#include "core/place.h"
#include "core/create.h"

/* Parameters that an instance left on the way down, by the number that the manager has for them: 1 and up, in the order in which they came. */
typedef struct KzChanged {
    struct KzChanged *before;
    uint64_t number;
    PFLT_INSTANCE by;
    FLT_PARAMETERS parameters;
} KzChanged;

struct KzOpaque {
    UCHAR major, minor, operation_flags;
    ULONG irp_flags, data_flags;
    bool has_no_file;
    FLT_PARAMETERS first, now; /* those that were asked for, and those that came to the file system: buffers are pointers, and none is copied */
    KzChanged *changed;
    uint8_t *output; /* the requestor's own buffer for the answer, and its size; and how many bytes it sent */
    size_t output_size, input_size;
    uint64_t information;
    KzFile *target; /* the folder that a rename leads to, open as long as that is under way; else NULL */
    bool is_programs; /* its buffers are the program's own */
    bool is_misled; /* a filter put another name into its buffer */
};

/* A write at the end of its file, wherever that is once it comes there: the manager has this offset for it, an odd one close to the largest, and filters see
 * FILE_WRITE_TO_END_OF_FILE. No other write may be there. */
#define KZ_AT_END (((uint64_t)1 << 40) - KZ_BYTES - 1)
static inline uint64_t kz_offset_of(LONGLONG said)
{
    return said == -1 ? KZ_AT_END : (uint64_t)said == KZ_AT_END ? UINT64_MAX : (uint64_t)said;
}
static inline LONGLONG kz_shown_offset(uint64_t offset)
{
    return offset == KZ_AT_END ? -1 : (LONGLONG)offset;
}

/* What is asked for. */
struct KzAsked {
    UCHAR major, minor, flags;
    ULONG irp_flags, data_flags; /* beside the usual ones; or in place of FLTFL_CALLBACK_DATA_IRP_OPERATION */
    ULONG code;                  /* the class, the control code, the filter of a notice, the protection of a section */
    const void *input;
    size_t input_size, room;
    uint64_t from, length; /* of a lock */
    const char *pattern;
    KzFile *target; /* as the rename that has it */
    bool has_no_file, waits; /* it may wait in the file system */
    bool advances; /* a size: up to there something was written */
};

/* Memory that lives as long as its operation. */
typedef struct KzBlock {
    struct KzBlock *next;
    void *bytes;
} KzBlock;

/* An instance that an operation with an answer's buffer passed on its way down: the buffer that it received, and the one that it put in its place, if it did. */
typedef struct KzVisit {
    struct KzVisit *above;
    PFLT_INSTANCE instance;
    PVOID received, swapped;
    PMDL received_mdl;
    ULONG room, swapped_room;
    KzCreate create; /* what it received of a create */
} KzVisit;

/* The description of a swapped buffer: as in the kit, the manager frees it. */
typedef struct KzMdl {
    struct KzMdl *next;
    PMDL mdl;
} KzMdl;

/* A reference that goes along to a postoperation beside a completion that isn't its context: who sent it. */
typedef struct KzSent {
    struct KzSent *next;
    PVOID body;
    KzPlace place;
} KzSent;

/* Where an operation is, as its filters see it. */
typedef enum {
    KZ_GOES_ON,
    KZ_IN_PREOPERATION,
    KZ_COMPLETED_IN_PRE, /* by the preoperation that is to pend it, or meanwhile: that waits for its return */
    KZ_IN_POSTOPERATION,
    KZ_COMPLETED_IN_POST,
    KZ_HELD_BY_PRE,
    KZ_HELD_BY_POST,
    KZ_RESUMED, /* its runner, or whoever comes to it, is to carry it on */
    KZ_OVER
} KzStage;

/* What the callback that runs was shown, and what the bytes were before it. */
typedef struct {
    FLT_IO_PARAMETER_BLOCK parameters;
    IO_STATUS_BLOCK status;
    uint8_t *asked, *pristine, *answered;
    size_t asked_length, answered_length;
} KzShown;

/* What a completion left that the manager hasn't yet: a number, bytes where there are some, and a status where that was changed behind the manager's back. */
typedef struct {
    bool is_there, has_status;
    uint8_t status;
    uint64_t number;
    const uint8_t *bytes;
    size_t length;
} KzServed;

/* A routine that wants the status with which the file system's call returned, and the parameters as they were when it was asked for. */
typedef struct KzWantsStatus {
    struct KzWantsStatus *next;
    PFLT_INSTANCE instance;
    const void *function;
    PVOID context;
    FLT_IO_PARAMETER_BLOCK parameters;
} KzWantsStatus;

/* An instance whose teardown waits for an operation, and whether its preoperation has the postoperation in its own thread. */
typedef struct {
    PFLT_INSTANCE instance;
    bool is_synchronized;
} KzOwed;

/* What a postoperation put off to where the IRQL is low enough; no callback if it didn't. */
typedef struct {
    PFLT_POST_OPERATION_CALLBACK callback;
    PVOID completion;
    FLT_POST_OPERATION_FLAGS flags;
} KzSafe;

/* Of an operation that a driver began itself: who hears of it, and what comes of one that nobody waits for. */
typedef struct {
    bool is_own, is_waited_for;
    bool is_user;     /* a program began it */
    bool is_fast;     /* it has no IRP */
    bool is_reissued; /* a filter sent it down again */
    bool is_late;     /* the cache's or the memory manager's: after the cleanup of its handle too */
    PFLT_INSTANCE initiator; /* those at its altitude and above don't hear; NULL: all hear */
    ULONG irp_flags;
    PECP_LIST ecps; /* of a create; the filter's own */
    const KzAsked *opaque; /* what the kit has in place of the manager's operation, as it begins */
    const KzCreate *create; /* of a create, as it begins; NULL: the usual one */
    uint8_t worker;
    bool has_worker; /* a client's, which has one of its own all the same */
    PFLT_CALLBACK_DATA data; /* that the filter has of it, if it made one */
    void (*done)(void *given, NTSTATUS status, uint64_t information, const uint8_t *bytes, size_t length);
    void *given;
} KzOwn;

/* Whether it is to be cancelled, and who is told: the queue that it is in, or a routine. */
typedef struct {
    bool is_asked;
    PFLT_CALLBACK_DATA_QUEUE queue;
    PFLT_CALLBACK_DATA_QUEUE_IO_CONTEXT context; /* that its filter keeps */
    VOID (*routine)(PFLT_CALLBACK_DATA data);
    void (*host)(KzOp *op); /* a call of the kit keeps it */
} KzCancel;

struct KzOp {
    KzOp *next;
    uint64_t id;
    uint8_t event;
    KzFile *file;
    PFLT_VOLUME volume;
    PETHREAD thread;
    IO_SECURITY_CONTEXT security;
    ACCESS_STATE access;
    PFLT_IO_PARAMETER_BLOCK iopb;
    FLT_CALLBACK_DATA *data;
    KazdrinData lent;
    KzShown shown;
    NTSTATUS other; /* the kit's status that the manager counts as another */
    KzServed served;
    KzBlock *blocks;
    KzVisit *visits;
    KzMdl *mdls;
    KzSent *sent;
    KzWantsStatus *wants; /* the last that asked first; none once they were told */
    bool is_answered;     /* the file system's call has returned with this status; else that is the operation's own */
    NTSTATUS answered;
    PVOID caller; /* the buffer of the caller */
    uint64_t process; /* and whose that is */
    PMDL no_mdl;  /* that of a query, which has none */
    ULONG caller_room;
    KzStage stage;
    PFLT_INSTANCE holder;
    const void *holder_function; /* whose return holds it */
    KzOwed owed[KZ_OWED]; /* as far as there is room */
    unsigned owed_count;
    bool comes_from_device; /* its answer does, and nothing that waits was in between: it may come up at DISPATCH_LEVEL */
    KzSafe safe;
    unsigned maker;
    KzClient *runner; /* who carries it on, also while it is held */
    bool is_awaited;  /* and waits until it is let go on */
    KzOwn own;
    KzOpaque *opaque; /* NULL: it is one of the manager's own */
    bool has_pended;    /* a filter or the file system kept it for a while */
    bool is_waiting;    /* the file system keeps it; it has a worker of its own */
    bool is_returning;  /* and that it waits is told still: nobody else carries it on before that is over */
    PECP_LIST ecps; /* that a filter put into a create */
    KzCancel cancel;
    PFLT_INSTANCE last; /* that it came to on its way down; NULL if that isn't known */
    bool is_cancelled; /* a create that a filter cancelled in its postoperation */
    bool is_misnamed;  /* a create whose file object has a name that is none */
    bool is_reopened;  /* a create that failed, and that a filter sent down again: its file is open all the same */
    struct {
        const struct KzBytes *point; /* of the reparse point that a create came upon; NULL if it came upon none */
        size_t rest;                 /* letters of its name behind that */
    } met;
    FLT_TAG_DATA_BUFFER *tag; /* the same, as callbacks see it */
    LIST_ENTRY opens;         /* tags that it is to open by themselves, as filters added them; all zeros: none */
    GUID activity;
    bool has_activity;
    KzPriority priority;
    struct {
        bool is_set;
        ULONG from;
    } zeroing; /* FsZeroingOffset of its IRP */
    struct {
        struct KzOplock *of; /* whose break it waits for; NULL: none's */
        bool is_over, is_apart; /* it waits no more; it isn't its own thread that waits */
        bool goes_beside;    /* a create that goes on before a break is over: STATUS_OPLOCK_BREAK_IN_PROGRESS */
        bool has_come;       /* to the file system, before it waited there */
    } breaks;
    KzCreate asked, create; /* what a create asked for as it began, and what it asks for by now */
    unsigned users;   /* callbacks that look at it beside its runner */
    const char *request, *path; /* as in KzPlace */
    unsigned line;
    /* With what it was completed in its preoperation. */
    FLT_PREOP_CALLBACK_STATUS early;
    PVOID early_context;
    KzOp *next_resumed;
};

/* Puts other parameters into an operation: the event of their kind, with the bytes. */
typedef uint32_t KzPut(KzOp *op, KazdrinEvent event, const uint8_t *bytes, size_t length);

/* What an operation was answered: a number that stands for the kit's own status, which is `other`, and bytes, which lie in the client's room. */
typedef struct {
    KzReply reply;
    NTSTATUS other;
    size_t length;
    bool is_refused; /* it never began */
} KzAnswer;

#endif
