/* What the modules of the host share. Driver sources see nothing of it. */
#ifndef KZ_HOST_H
#define KZ_HOST_H

#include "kazdrin.h"
#include "kzflt.h"
#include "core/binary.h"
#include "core/said.h"
#include "wire/status.h"

#include <stdbool.h>

#define KZ_BYTES 32768
/* A listing's buffer, and the most that a driver is given at once. */
#define KZ_LIST_BYTES 16384
#define KZ_OWED 16
/* Those of clients, and 32 helpers behind them. */
#define KZ_WORKERS 48
/* Threads beside the requests, and their numbers as clients: behind those of scenarios. */
enum { KZ_THREADS = 8, KZ_FIRST_THREAD = 14 };
#define KZ_LARGEST ((size_t)1 << 30)

typedef struct KzOp KzOp;
typedef struct KzOpaque KzOpaque;
typedef struct KzAsked KzAsked;
typedef struct KzClient KzClient;
typedef struct KzThread KzThread;

struct _FLT_FILTER {
    uint8_t id;
    const KzDriver *driver;
    FLT_REGISTRATION registration;
    bool is_registered, is_started, is_mandatory;
    ULONG features;  /* SupportedFeatures of its key in the registry */
    bool gave_up;    /* a wait that nobody here could end: what it does behind that isn't its mistake */
    uint32_t end; /* how far its end came: 0, or the status that stopped it */
    char altitude[68]; /* where it is attached by itself; empty if it isn't */
    DRIVER_OBJECT object;
    UNICODE_STRING registry_path;
    PFLT_FILTER refused; /* the next of those that were never registered: what is told of them needs their names */
};

struct _FLT_VOLUME {
    uint8_t id;
    char name[40];
    bool is_dismounting, is_gone;
    DEVICE_OBJECT device, disk;
    FLT_FILESYSTEM_TYPE type;
    USHORT sector;
    bool is_read_only, is_snapshot;
    SHARE_ACCESS share;           /* of those that opened the volume itself */
    const struct KzFile *locker;  /* by FSCTL_LOCK_VOLUME; NULL if nobody has locked it */
    bool is_to_go;                /* FSCTL_DISMOUNT_VOLUME was sent: it goes with that handle */
    bool makes_folders; /* those above a new name, as no file system of the kit does */
    bool is_cached;     /* reads and writes go by its files' pages, unless they say otherwise */
    bool is_case_sensitive; /* names that differ by it alone are two */
};

struct _FLT_INSTANCE {
    uint16_t id;
    PFLT_FILTER filter;
    PFLT_VOLUME volume;
    unsigned items;         /* its work items that are queued, or run */
    unsigned in_flight;     /* operations that owe it a postoperation or a drain, or that it holds or looks at */
    KzClient *torn_down_by; /* who takes it through its teardown */
    char name[40], altitude[68];
};

/* How urgent I/O is, as somebody said. */
typedef struct {
    bool is_set;
    IO_PRIORITY_HINT hint;
} KzPriority;

/* The longest path below a volume, with its ending null, and the same after a volume's name. A letter beyond ASCII takes five. */
enum { KZ_PATH = 2048, KZ_WHOLE_PATH = KZ_PATH + 256 };

/* An open file, as filters see it: the kit's structure first. */
typedef struct KzFile {
    FILE_OBJECT object;
    SECTION_OBJECT_POINTERS sections;
    struct KzFile *next;
    uint64_t handle, number; /* that the manager gave it, and by which clients know it */
    bool has_handle, is_directory, is_close_due;
    bool is_opening;      /* the file system has answered its create, which goes up still */
    bool is_own;          /* a driver opened it: its handle is no client's */
    PFLT_INSTANCE opener; /* of a filter's own: those at its altitude and above don't hear of it */
    unsigned users; /* operations, and the handle */
    unsigned maker; /* the number of the client: lists are in this order, so that they are the same whoever came first */
    PFLT_VOLUME volume;
    char *path;          /* by which it was opened */
    struct {
        NTSTATUS status;               /* why that is no name; STATUS_SUCCESS: it is one */
        bool is_of_directory, is_data, has_stream; /* what it says of what it opens */
    } spelt;
    struct KzName *name; /* that leads to it now; NULL of a volume, of a listing, and of a path that is none */
    uint8_t cached;      /* formats in which its name was asked for while its create was under way, a bit each */
    bool is_counted;     /* among its file's open handles */
    uint8_t refusal;     /* the status with which a folder of the host machine refused to delete it */
    bool is_volume;      /* it is of the volume itself, whose file is the root here */
    bool is_posix;       /* a deletion takes its name away with the handle's cleanup */
    bool is_sharing;     /* it counts in its file's share access */
    ACCESS_MASK access;  /* that its create was granted */
    GUID oplock_key;     /* if its create said one: handles of the same key break no oplock of one another */
    bool has_oplock_key, asks_next; /* its create said that it asks for an oplock next */
    ULONG next_ea; /* how many extended attributes a query of them has passed */
    PKTRANSACTION transaction; /* in which it was opened; NULL if in none */
    ULONG_PTR created;   /* what the file system made of its create: FILE_OPENED and its kin */
    struct {             /* of a directory */
        char *pattern, *last; /* NULL: none yet */
        unsigned dots;
        bool is_begun;
    } scan;
    KzPriority priority;
} KzFile;

/* All of the host, with what its modules keep beside it: that of the client that is inside. */
typedef struct {
    Kazdrin manager;
    const KzDriver *drivers;
    size_t drivers_count;
    uint32_t helpers; /* a bit for each that is busy */
    PFLT_FILTER filters[16], refused;
    PFLT_VOLUME volumes[8];
    PFLT_INSTANCE *instances;
    size_t filters_count, volumes_count, instances_count;
    KzOp *ops, *resumed, **resumed_end;
    KzFile *files;
    uint64_t *unheard; /* handles by which files went, in their order: to clients they have no number */
    size_t unheard_count;
    KzCounts counts;
    uint64_t changes; /* how often something ended that somebody may wait for */
    bool is_journal_read, is_journal_ordered; /* in this run; and then, whose record comes first is another end */
    LONGLONG passed;  /* since the run began, in units of 100 nanoseconds */
    unsigned waiters, fires_left; /* who waits while timers may fire, and how many of these may yet (core/clock.h) */
    ULONG uuids;      /* that were made */
    unsigned oplocks; /* that were asked for, and aren't forgotten */
    /* What each module keeps of a run: a structure that its own file knows, made as the run begins and zero. */
    struct KzAccessState *access;
    struct KzEdgeState *edge;
    struct KzCacheState *cache;
    struct KzContextState *context;
    struct KzDeviceState *device;
    struct KzDpcState *dpc;
    struct KzFileContextState *filecontext;
    struct KzHandleState *handle;
    struct KzHeldState *held;
    struct KzImageState *image;
    struct KzJournalState *journal;
    struct KzKeptState *kept;
    struct KzLabelState *label;
    struct KzSectorState *sector;
    struct KzLentState *lent;
    struct KzMadeState *made;
    struct KzNameState *name;
    struct KzNoticeState *notice;
    struct KzOwnOplockState *ownoplock;
    struct KzFileLockState *filelock;
    struct KzPieceState *piece;
    struct KzPortState *port;
    struct KzProcessState *process;
    struct KzProgramState *program;
    struct KzRangeState *range;
    struct KzRecordState *record;
    struct KzReferenceState *reference;
    struct KzRefusalState *refusal;
    struct KzRegistryState *registry;
    struct KzRoutineState *routine;
    struct KzSectionState *section;
    struct KzStackState *stack;
    struct KzStreamState *stream;
    struct KzThreadState *thread;
    struct KzTimerState *timer;
    struct KzToldState *told;
    struct KzTreeState *tree;
    struct KzTunnelState *tunnel;
    struct KzVersionState *version;
    struct KzWaitingState *waiting;
    struct KzWorkState *work;
    /* What is above the core, as run/open.c hands it down. */
    const struct KzModule *const *modules; /* up to NULL */
    const struct KzModule *looking[8];     /* those that look at memory which is given back, the last one first, up to NULL */
    const struct KzObserver *observer;
    const struct KzStore *store;
} KzHost;

extern KzHost kz;

#endif
