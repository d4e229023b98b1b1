/* Instances: how they come and go. */
#ifndef KZ_MANAGER_INSTANCE_H
#define KZ_MANAGER_INSTANCE_H

#include "host.h"

uint64_t kz_phase(PFLT_INSTANCE instance);
/* Of a detach that is a request of its own: the step changes how far the teardown is, and the contexts of the instance; or it looks at what is in flight. Beside that it touches no more than is
 * said. One that is part of something else may touch everything. */
void kz_uses_teardown(PFLT_INSTANCE instance, bool is_changed);
/* `said` is what its InstanceSetup answered where it refused, else STATUS_SUCCESS. */
uint32_t kz_attach(PFLT_FILTER filter, PFLT_VOLUME volume, const char *name, const char *altitude, FLT_INSTANCE_SETUP_FLAGS flags, uint64_t *number, NTSTATUS *said);
void kz_attach_by_itself(PFLT_FILTER filter, PFLT_VOLUME volume, FLT_INSTANCE_SETUP_FLAGS flags);
uint32_t kz_detach(PFLT_INSTANCE instance);
uint32_t kz_detach_alone(PFLT_INSTANCE instance); /* as a request of its own */
uint32_t kz_tear_down(PFLT_INSTANCE instance, FLT_INSTANCE_TEARDOWN_FLAGS reason);
/* Up to the cleanup of its contexts, since its volume goes; and from there to its end. */
uint32_t kz_stop_for_dismount(PFLT_INSTANCE instance);
uint32_t kz_finish_teardown(PFLT_INSTANCE instance);
bool kz_is_instance(PFLT_INSTANCE instance);
/* Whether it may be used: one that was detached and that nobody references is told. */
bool kz_may_use(const char *call, PFLT_INSTANCE instance);
/* A worker is in a routine of the instance then, on no file or on an open one: false where its setup isn't over, or its teardown was completed. */
bool kz_enter_routine(PFLT_INSTANCE instance, const KzFile *file, uint8_t worker);
void kz_leave_routine(uint8_t worker);

#endif
