/* Processes and threads of the kit, by the numbers that a test gives. */
#ifndef KZ_CORE_PROCESS_H
#define KZ_CORE_PROCESS_H

#include "host.h"

enum { KZ_THREAD_OBJECT = 6 }; /* as the kit has it in a dispatcher's header */

struct _EPROCESS {
    PEPROCESS next;
    uint64_t id, parent;
    char image[128], user[68]; /* as \Device\v0\test.exe, with / for \, and a SID as text; empty: the usual ones */
    char own_name[16]; /* its image's, as PsGetProcessImageFileName gave it */
    bool is_over, is_elevated;
    ULONG integrity;   /* 0: as its user has it */
    LONGLONG created;  /* when, by the clock; 0: before the run */
};

PETHREAD kz_thread_object(uint64_t process, uint64_t id);
void kz_end_thread_object(PETHREAD thread);
extern const struct KzModule kz_process_module;
PEPROCESS kz_process(uint64_t id);
PEPROCESS kz_process_there(uint64_t id);
PETHREAD kz_thread_there(uint64_t id);
KzPriority *kz_priority_of(PETHREAD thread);
bool kz_is_process(const void *object);
bool kz_is_thread(const void *object);
bool kz_has_thread(uint64_t process, uint64_t id);

#endif
