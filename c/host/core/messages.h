/* What can be told, by numbers that stay: KZ0101 and on are mistakes on Windows too (TOLD), KZ0201 and on are where Kazdrin differs (LIMIT), and KZ0301 and on are mistakes again. docs/TOLD.md has a line for each,
 * with what the kit does. A number that was given is never used for anything else. */
#ifndef KZ_MESSAGES_H
#define KZ_MESSAGES_H

enum {
    /* References and contexts. */
    KZM_LEAK = 101,
    KZM_RELEASED_TWICE = 102,
    KZM_CLEANED_UP = 103,
    KZM_NO_CONTEXT_THERE = 104,
    KZM_OTHER_KIND = 105,
    KZM_OTHER_FILTER = 106,
    KZM_PAST_CONTEXT = 107,
    KZM_WRITTEN_CONTEXT = 108,
    KZM_OWN_CLEANUP = 109,
    KZM_NOT_REFERENCED = 110,
    /* Held operations. */
    KZM_NEVER_COMPLETED = 111,
    KZM_COMPLETED_TWICE = 112,
    KZM_COMPLETED_NOT_PENDED = 113,
    KZM_NO_HELD_VERDICT = 114,
    KZM_WRITTEN_DATA = 115,
    KZM_HELD_DRAIN = 116,
    KZM_DENIED_OPEN = 117,
    /* Parameters and answers. */
    KZM_NOT_DIRTY = 121,
    KZM_LOST_SWAP = 122,
    KZM_NO_VERDICT = 123,
    KZM_NO_POST = 124,
    KZM_STATUS_NOT_COMPLETED = 125,
    KZM_PAST_LENGTH = 126,
    KZM_COMPLETED_PENDING = 127,
    KZM_NO_TARGET = 128,
    KZM_FAILED_CLOSE = 129,
    KZM_WRITE_IN_PLACE = 130,
    KZM_NOT_OWN_DATA = 131,
    KZM_PAST_BUFFER = 132,
    KZM_NO_SWAP_BUFFER = 133,
    KZM_OTHER_PROCESS = 134,
    KZM_NOT_OWN_MEMORY = 135,
    KZM_STACK_CONTEXT = 136,
    KZM_NO_BYTES = 137,
    KZM_PROGRAMS_HANDLE = 138,
    KZM_READ_PAST = 139,
    KZM_UNWRITTEN = 140,
    /* Memory. */
    KZM_POOL_LEAK = 141,
    KZM_NO_POOL = 142,
    KZM_WRONG_TAG = 143,
    KZM_PAST_POOL = 144,
    KZM_WRITTEN_FREED = 145,
    KZM_NO_LOOKASIDE = 146,
    KZM_NOT_TERMINATED = 147,
    KZM_BROKEN_LIST = 148,
    KZM_STILL_MADE = 149,
    KZM_READ_FREED = 150,
    /* Names, objects, handles. */
    KZM_NAME_LEAK = 151,
    KZM_NO_NAME = 152,
    KZM_OBJECT_LEAK = 153,
    KZM_OBJECT_RELEASED = 154,
    KZM_HANDLE_LEAK = 155,
    KZM_NO_HANDLE = 156,
    KZM_PORT_LEAK = 157,
    KZM_WORK_LEFT = 158,
    KZM_TIMER_LEFT = 159,
    KZM_NEVER_MADE = 160,
    /* Locks. */
    KZM_WAITS_FOR_EVER = 161,
    KZM_LOCK_NOT_HELD = 162,
    KZM_LOCK_AT_RETURN = 163,
    KZM_LOCK_DELETED = 164,
    KZM_IRQL = 165,
    KZM_APCS_ENABLED = 166,
    KZM_PAGED_OBJECT = 167,
    KZM_RECURSION = 168,
    KZM_LOCKED_PAGES = 169,
    /* Loading and unloading. */
    KZM_REGISTERED_OUTSIDE = 171,
    KZM_NEVER_REGISTERED = 172,
    KZM_NEVER_STARTED = 173,
    KZM_FAILED_REGISTERED = 174,
    KZM_AGREED_REGISTERED = 175,
    KZM_REFUSED_UNREGISTERED = 176,
    KZM_UNREGISTERED_OUTSIDE = 177,
    KZM_BAD_REGISTRATION = 178,
    KZM_TWO_CONTEXTS = 179,
    KZM_TWO_OPERATIONS = 180,
    KZM_NO_END = 181,
    KZM_NO_FILTER_OBJECT = 182,
    /* A driver's own input and output, its programs and threads. */
    KZM_NOT_OPENED = 183,
    KZM_THREAD_LEFT = 184,
    KZM_CANCEL_LEFT = 185,
    KZM_ROUTINE_LEFT = 186,
    KZM_IRP = 187,
    KZM_NAME_QUERY = 188,
    KZM_OTHER_TARGET = 189,
    /* The driver's own. */
    KZM_ASSERT = 191,
    KZM_BUG_CHECK = 192,
    /* Its sections, where it is a binary. */
    KZM_GONE = 193,
    KZM_READ_ONLY = 194,
    /* Its stack. */
    KZM_STACK = 195,
    /* Its programs' memory. */
    KZM_OUTSIDE_TRY = 196,

    /* Contexts. */
    KZM_HAND_IS_FULL = 201,
    KZM_TOO_MANY_CONTEXTS = 202,
    KZM_NOT_OWN_OBJECT = 203,
    /* 204 was contexts of transactions. */
    KZM_KEPT_SET = 205,
    /* Held operations. */
    KZM_UNREGISTER_WAITS = 213,
    /* Parameters and answers. */
    KZM_CREATE_COMPLETED = 221,
    KZM_CLOSE_COMPLETED = 222,
    KZM_CREATE_ANSWER = 223,
    KZM_OTHER_PARAMETERS = 224,
    KZM_LONG_ANSWER = 225,
    KZM_DIRTY_POST = 226,
    KZM_REDIRECTED = 227,
    /* 228 was a routine that wants an operation's status. */
    /* What is left out by name. */
    /* 231 was a port that nobody connects to. */
    KZM_OWN_IO = 232,
    /* 233 was cancellation. */
    KZM_TRANSACTION = 234,
    KZM_OPLOCK = 235,
    KZM_SECTION = 236,
    KZM_THREAD = 237,
    KZM_REPARSE = 238,
    KZM_CALLBACKS = 239,
    KZM_SECURITY = 240,
    KZM_NOBODY_SETS = 241,
    /* 242 and 246 were exceptions. */
    KZM_NOTIFY = 243,
    KZM_ATTACH = 244,
    KZM_DEVICE = 245,
    KZM_UNKNOWN_WAIT = 247,
    /* What isn't modelled. */
    KZM_NOT_MODELLED = 251,
    KZM_FILE_LOCK = 252,
    KZM_CACHE = 253,
    KZM_ECP = 254,
    KZM_CRYPTO = 255,
    /* What isn't known. */
    KZM_NO_SUCH_ROUTINE = 257,
    /* Names. */
    KZM_LONG_PATH = 258,
    /* Paging I/O: from here on they are mistakes again. */
    KZM_PAGE_WAITS = 301,
    KZM_PAGE_SHORT = 302,
    KZM_PAGE_LOST = 303,
    KZM_OWN_OPLOCK = 304,
    KZM_ATTACHED = 305,
    KZM_APCS_DISABLED = 306,
    KZM_MESSAGES = 320
};

#define KZ_IS_LIMIT(message) ((message) >= 200 && (message) <= 300)

#endif
