/* A create whose file object gets another name in a preoperation that lets it go on: those below, and the file system, open that one.
 *
 * In the manager a create has the path with which it began. So the operation is given up there, for nobody to hear, and another create begins in its place: the instances that it passed before answer
 * for themselves what they answered then, without being called. Callback data, the file object and what is owed to them stay. */
#include "manager/newname.h"

#include "core/client.h"
#include "core/op.h"
#include "core/place.h"
#include "core/state.h"
#include "core/told.h"
#include "lib/letters.h"
#include "filesystem/fileobject.h"
#include "filesystem/name.h"
#include "filesystem/create.h"
#include "filesystem/sharing.h"
#include "filesystem/spelling.h"
#include "filesystem/tree.h"
#include "manager/context.h"
#include "manager/disposition.h"
#include "manager/hand.h"
#include "manager/instance.h"
#include "manager/post.h"
#include "manager/pre.h"

#include <stdlib.h>

/* What an instance above asked for, with its completion. */
typedef struct {
    PFLT_INSTANCE instance;
    uint64_t completion;
    bool is_synchronized;
} Asked;

typedef struct {
    Asked asked[KZ_OWED];
    unsigned count;
} Passed;

static PFLT_INSTANCE instance_of(const KazdrinTold *told)
{
    return told->instance < kz.instances_count ? kz.instances[told->instance] : NULL;
}

/* A postoperation that nobody hears of. What it was sent the host keeps for it. */
static void skip_post(KzOp *op, const KazdrinTold *told, Passed *passed)
{
    PFLT_INSTANCE instance = instance_of(told);
    const KzOwed *owed = kz_owed_to(op, instance);
    KzPlace before = kz_enter_again(&kz_me->place);
    kz_me->place.op = op;
    kz_me->place.instance = instance;
    kz_me->place.filter = instance->filter;
    kz_keep_rest(NULL);
    kz_me->place = before;
    if (passed->count < KZ_OWED)
        passed->asked[passed->count++] = (Asked){instance, told->number, owed && owed->is_synchronized};
    kazdrin_post_returned(&kz.manager, &(KazdrinEvent){.mode = KZV_FINISHED, .worker = kz_worker()});
}

static void give_up(KzOp *op, Passed *passed)
{
    KazdrinTold told;
    kz_keep_rest(NULL);
    kazdrin_pre_returned(&kz.manager, &(KazdrinEvent){.mode = KZV_COMPLETE, .status = KZS_DEVICE_FAULT, .operation = op->id, .worker = kz_worker()});
    do {
        told = (KazdrinTold){0};
        if (kazdrin_next(&kz.manager, &(KazdrinEvent){.operation = op->id, .worker = kz_worker()}, &told) == KZS_OK && told.action == KZA_POST)
            skip_post(op, &told, passed);
    } while (told.action == KZA_POST || told.action == KZA_MOVED);
    kz_event_into(kz_worker(), (KazdrinEvent){.event = KZE_COLLECT, .operation = op->id}, kz_me->room, sizeof kz_me->room);
}

/* The next instance on the way down answers as it did. */
static void answer_again(const KazdrinTold *told, const Passed *passed)
{
    KazdrinEvent verdict = {.mode = KZV_NO_CALLBACK, .worker = kz_worker()};
    PFLT_INSTANCE instance = instance_of(told);
    for (unsigned at = 0; at < passed->count; at++)
        if (passed->asked[at].instance == instance) {
            verdict.mode = passed->asked[at].is_synchronized ? KZV_SYNCHRONIZE : KZV_WITH_CALLBACK;
            verdict.number = passed->asked[at].completion;
        }
    kazdrin_pre_returned(&kz.manager, &verdict);
}

/* Up to the instance that put the new name there, which is in its preoperation again. */
static void begin_again(KzOp *op, PFLT_INSTANCE instance, const Passed *passed)
{
    const char *key = kz_key_of(op->file);
    KazdrinEvent event = {.event = KZE_CREATE, .volume = op->volume->id, .mode = kz_mode_of(op->create.options >> 24)};
    KzTold begun = kz_event_with(kz_worker(), event, key, strlen(key));
    KazdrinTold told = {0};
    if (begun.status == KZS_OK)
        op->id = begun.told.operation;
    while (begun.status == KZS_OK) {
        told = (KazdrinTold){0};
        uint32_t status = kazdrin_next(&kz.manager, &(KazdrinEvent){.operation = op->id, .worker = kz_worker()}, &told);
        if (status != KZS_OK || told.action != KZA_PRE || instance_of(&told) == instance)
            return;
        answer_again(&told, passed);
    }
    fprintf(stderr, "no memory\n");
    exit(1);
}

/* Whom it has passed, or is in, is still there: one whose teardown has begun would be left out by another create. */
static bool are_attached(const KzOp *op)
{
    unsigned at = 0;
    while (at < op->owed_count && kz_phase(op->owed[at].instance) == KZP_INSTANCE_ATTACHED)
        at++;
    return at == op->owed_count;
}

static void take(KzOp *op, PFLT_INSTANCE instance, const char *path)
{
    Passed passed = {.count = 0};
    KzName *name = kz_take_any_name(op->volume, path);
    op->is_misnamed = name == NULL;
    if (!name)
        return;
    give_up(op, &passed);
    kz_let_go_name(op->file->name);
    op->file->name = name;
    op->file->cached = 0;
    kz_spell_file(op->file, path);
    op->file->is_directory = kz_opens_directory(&op->create, op->volume, path);
    begin_again(op, instance, &passed);
}

void kz_take_new_name(KzOp *op, PFLT_INSTANCE instance)
{
    char said[KZ_WHOLE_PATH], own[KZ_WHOLE_PATH];
    WCHAR letters[KZ_WHOLE_PATH];
    if (op->event != KZE_CREATE || op->create.is_target || op->file->is_volume || !op->file->name)
        return;
    size_t length = kz_narrow(said, sizeof said, &op->file->object.FileName);
    bool has_root = said[0] == '/';
    snprintf(own, sizeof own, "/%s", op->file->path);
    if (kz_widen(letters, own) == op->file->object.FileName.Length && memcmp(letters, op->file->object.FileName.Buffer, op->file->object.FileName.Length) == 0)
        return; /* it is as it was, also where a part of it has a backslash */
    if (!has_root || length > KZ_PATH)
        op->is_misnamed = true;
    else if (are_attached(op))
        take(op, instance, said + 1);
    if (op->is_misnamed || strcmp(said + 1, op->file->path) == 0)
        return;
    kz_tell(KZM_REPARSE, "FILE_OBJECT", "a name that a preoperation puts there, while the teardown of an instance that the create has passed has begun: it doesn't count");
    kz_name_object(op->file, op->file->path);
}
