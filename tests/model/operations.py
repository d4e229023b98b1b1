"""Operations: begun, carried from entry to entry by workers, held and resumed, collected."""
import contexts
import files
from status import (
    ACCESS_DENIED,
    BAD_REQUEST,
    DELETE_PENDING,
    DELETING_OBJECT,
    DISMOUNTING,
    NO_HANDLE,
    NO_INSTANCE,
    NOT_PENDED,
    TOO_MANY,
    WRONG_STEP,
    refuse_if,
)
from world import MOST_BYTES, MOST_END, MOST_HANDLES, MOST_OPERATIONS, Entry, Operation, Place

# What an instance, the file system, or the cache or memory manager may begin after a handle's cleanup and before its close.
LATE = ("read", "size", "setsize", "flush", "other")


def is_past_limit(kind, params):
    """Whether a length or an end is past a limit."""
    if kind == "read":
        return params[1] > MOST_BYTES or sum(params) > MOST_END
    if kind == "write":
        return len(params[1]) > MOST_BYTES or params[0] + len(params[1]) > MOST_END
    return kind == "setsize" and params[0] > MOST_END


def is_done(world, operation):
    """With no worker, nothing owed, a Complete or a base entry there, nothing held."""
    return not is_with_worker(world, operation) and not is_held(operation) and is_turned(operation) and not owed(operation)


def is_with_worker(world, operation):
    """Whether a worker is in a callback or call of it that `next` gave."""
    return any(it is not None and it.operation is operation and it.word in ("pre", "base", "post", "drain") for it in world.places.values())


def is_held(operation):
    """Whether a preoperation or a postoperation holds it."""
    return any(it.state == "held" for it in operation.entries)


def is_turned(operation):
    """Whether it goes up: it was completed, or was at the base."""
    return any(it.word == "base" or it.state == "complete" for it in operation.entries)


def owed(operation):
    """The preoperations that asked for a postoperation which neither was made nor drained, the lowest first."""
    told = [it.instance for it in operation.entries if it.word in ("post", "drain")]
    asked = [it for it in operation.entries if it.word == "pre" and it.state in ("with", "sync")]
    return [it for it in reversed(asked) if it.instance not in told]


def is_in_flight(operation, instance):
    """Whether a callback of the instance runs or holds it, or it owes it a postoperation."""
    mine = [it for it in operation.entries if it.instance is instance]
    return any(it.state in ("running", "held") for it in mine) or any(it.instance is instance for it in owed(operation))


def in_flight(world, instance):
    """How many operations are in flight at it, those that were collected and have a drain there included."""
    return sum(is_in_flight(it, instance) for it in world.operations.values())


def began(world, instance):
    """How many operations its filter began for itself, below it or at the base, that weren't collected."""
    return sum(it.initiator is instance for it in world.uncollected())


def refuse_initiator(world, initiator, volume):
    """An instance whose filter begins an operation for itself."""
    refuse_if(initiator.phase == "detached", NO_INSTANCE)
    refuse_if(initiator.phase == "emptying", DELETING_OBJECT)
    refuse_if(volume is not None and initiator.volume is not volume, BAD_REQUEST)


def refuse_handle(world, kind, handle, is_late):
    """What a handle's phase doesn't allow."""
    refuse_if(handle.is_gone, NO_HANDLE)
    if kind == "cleanup":
        refuse_if(handle.cleanup is not None, WRONG_STEP)
    elif kind == "close":
        refuse_if(handle.is_closing, NO_HANDLE)
        refuse_if(handle.cleanup is None or not is_done(world, handle.cleanup), WRONG_STEP)
    else:
        refuse_if(handle.is_closing or (handle.cleanup is not None and not (is_late and kind in LATE)), NO_HANDLE)


def begin(world, kind, params, handle=None, volume=None, path=None, start="client", initiator=None):
    """Begins an operation on a handle, on a volume, or a create of a path: a client's, or one from the top, below the initiator, or at the base."""
    if initiator is not None:
        refuse_initiator(world, initiator, volume if handle is None else None if handle.is_gone else handle.stream.volume)
    refuse_if(is_past_limit(kind, params), BAD_REQUEST)
    if handle is not None:
        refuse_handle(world, kind, handle, start != "client")
        volume = handle.stream.volume
    refuse_if(volume.is_dismounting, DISMOUNTING)
    refuse_if(len(world.uncollected()) >= MOST_OPERATIONS, TOO_MANY)
    if kind == "create":
        under_way = sum(it.is_under_way for it in world.operations.values())
        refuse_if(len(world.open_handles()) + under_way >= MOST_HANDLES, TOO_MANY)
    operation = Operation(len(world.begun), kind, params, world.births)
    world.begun.append(operation)
    operation.volume, operation.start, operation.initiator = volume, start, initiator
    put_on(world, operation, handle, path)
    world.operations[operation.number] = operation
    return operation


def put_on(world, operation, handle, path):
    """What the beginning does to the handle, or the path's stream."""
    if operation.kind == "create":
        operation.stream, operation.path, operation.is_under_way = files.stream_at(world, operation.volume, path), path, True
    elif handle is not None:
        operation.handle, operation.stream, operation.path = handle, handle.stream, handle.stream.path
    if operation.kind == "cleanup":
        handle.cleanup = operation
    if operation.kind == "close":
        handle.is_closing = True


def next_instance(operation):
    """Of the instances on its volume that are attached, were so when it began and registered for it, the highest that is below the last one visited."""
    if operation.start == "base":
        return None
    visited = [it.instance for it in operation.entries if it.word == "pre"]
    last = visited[-1] if visited else operation.initiator
    left = [
        it
        for it in operation.volume.instances
        if it.phase == "attached"
        and it.birth < operation.born
        and (it.filter.has_pre or it.filter.has_post)
        and (last is None or it.altitude < last.altitude)
    ]
    return max(left, key=lambda it: it.altitude, default=None)


def next_step(world, worker, operation):
    """Gives the worker the next callback or call. Answers its word, and the instance if there is one."""
    refuse_if(not world.is_idle(worker) or operation.is_collected or is_with_worker(world, operation), WRONG_STEP)
    if is_held(operation):
        return "held", None
    if is_turned(operation):
        return next_up(world, worker, operation)
    instance = next_instance(operation)
    if instance is None:
        return reach_base(world, worker, operation)
    if not instance.filter.has_pre:
        operation.entries.append(Entry("pre", instance, "with"))
        return "moved", instance
    operation.entries.append(Entry("pre", instance, "running", worker))
    world.places[worker] = Place("pre", instance, operation)
    return "pre", instance


def next_up(world, worker, operation):
    """The postoperation that is owed next, as a drain if its instance is stopping. One that is another worker's is 30."""
    asks = owed(operation)
    if not asks:
        return "done", None
    asked = asks[0]
    word = "drain" if asked.instance.phase == "stopping" else "post"
    refuse_if(word == "post" and asked.state == "sync" and asked.worker != worker, WRONG_STEP)
    operation.entries.append(Entry(word, asked.instance, "running", worker))
    world.places[worker] = Place(word, asked.instance, operation)
    contexts.take_along(world, worker, asked)
    return word, asked.instance


def answer_without_call(world, operation):
    """The status of a base entry that makes no call of the device, or None."""
    if operation.kind == "create":
        return DELETE_PENDING if operation.stream.is_marked else None
    if operation.handle is not None and operation.handle.is_gone:
        return NO_HANDLE
    if operation.kind in ("cleanup", "delete", "restore"):
        return 0
    if operation.kind == "close":
        return None if files.unlinks(world, operation.handle) else 0
    return None


def reach_base(world, worker, operation):
    """Puts the worker into the device's call, or records the entry of an operation that makes none."""
    status = answer_without_call(world, operation)
    if status is not None:
        enter_base(world, operation, (status, 0, b""))
        return "moved", None
    world.places[worker] = Place("base", None, operation, call=(operation.kind, operation.path, operation.params))
    return "base", None


def enter_base(world, operation, answer):
    """The base's entry, and what it does to the handle and the stream."""
    operation.entries.append(Entry("base", None, "done"))
    operation.answer = answer
    is_done_well = answer[0] == 0
    if operation.kind == "create":
        end_create(world, operation, is_done_well)
    elif operation.kind == "close":
        files.close_handle(world, operation.handle)
    elif operation.kind in ("delete", "restore") and is_done_well:
        operation.stream.is_marked = operation.kind == "delete"


def end_create(world, operation, is_done_well):
    """A create is under way no more. With success it has a handle, the number of which is its information; else its stream may go."""
    operation.is_under_way = False
    if is_done_well:
        operation.handle = files.open_handle(world, operation.stream)
        operation.answer = 0, operation.handle.number, b""
    else:
        files.let_go(world, operation.stream)


def return_base(world, worker):
    """The device's call is made, and returns. Answers its status."""
    place = world.inside(worker, "base")
    refuse_if(place is None, WRONG_STEP)
    world.places[worker] = None
    kind, path, params = place.call
    enter_base(world, place.operation, world.devices.call(place.operation.volume.folder, kind, path, params))
    return place.operation.answer[0]


def settle_verdict(world, operation, entry, verdict, status):
    """Records the verdict that counts."""
    if verdict == "complete" and operation.kind in ("cleanup", "close"):
        verdict = "none"
    if verdict in ("with", "sync") and not entry.instance.filter.has_post:
        verdict = "none"
    entry.state = verdict
    if verdict == "complete":
        operation.answer = ACCESS_DENIED if operation.kind == "create" and status == 0 else status, 0, b""
        if operation.kind == "create":
            end_create(world, operation, False)


def last_entry(operation, word, instance, state):
    """Its entry of that kind at the instance, in that state, or None."""
    return next((it for it in operation.entries if (it.word, it.instance, it.state) == (word, instance, state)), None)


def return_pre(world, worker, verdict, status=None, context=None):
    """A preoperation callback returns with a verdict: with, none, complete, sync or pend. A verdict that counts as `none` sends no context along."""
    place = world.inside(worker, "pre")
    refuse_if(place is None, WRONG_STEP)
    entry = last_entry(place.operation, "pre", place.instance, "running")
    world.places[worker] = None
    if context is not None and place.instance.filter.has_post:
        contexts.send_along(world, worker, entry, context)
    contexts.empty_hand(world, worker)
    if verdict == "pend":
        entry.state = "held"
    else:
        settle_verdict(world, place.operation, entry, verdict, status)


def return_post(world, worker, is_more):
    """A postoperation callback, or a drain, returns. A drain can't hold the operation."""
    place = world.inside(worker, "post") or world.inside(worker, "drain")
    refuse_if(place is None, WRONG_STEP)
    entry = last_entry(place.operation, place.word, place.instance, "running")
    world.places[worker] = None
    contexts.empty_hand(world, worker)
    entry.state = "held" if is_more and place.word == "post" else "finished"


def held_at(world, worker, operation, word):
    """The entry of that kind that the instance of the worker's callback (30) holds (28)."""
    place = contexts.callback_of(world, worker)
    entry = last_entry(operation, word, place.instance, "held")
    refuse_if(entry is None or operation.is_collected, NOT_PENDED)
    return entry


def resume_pre(world, worker, operation, verdict, status=None):
    """Lets go on what a preoperation of the callback's instance holds."""
    settle_verdict(world, operation, held_at(world, worker, operation, "pre"), verdict, status)


def change_held(world, worker, operation, kind, params):
    """Puts other parameters in place of those that the holder received, for all below it."""
    held_at(world, worker, operation, "pre")
    is_other = operation.kind != kind or (kind == "other" and operation.params[0] != params[0])
    refuse_if(is_other or is_past_limit(kind, params), BAD_REQUEST)
    operation.params = params


def resume_post(world, worker, operation):
    """Lets go on what a postoperation of the callback's instance holds."""
    held_at(world, worker, operation, "post").state = "finished"


def drain_early(world, worker, instance):
    """Gives the worker what the operation of the lowest number owes the stopping instance. Answers the operation, or None."""
    refuse_if(not world.is_idle(worker), WRONG_STEP)
    refuse_if(instance.phase == "detached", NO_INSTANCE)
    for operation in world.operations.values():
        asked = next((it for it in owed(operation) if it.instance is instance), None)
        if asked is not None and instance.phase == "stopping":
            operation.entries.append(Entry("drain", instance, "running", worker))
            world.places[worker] = Place("early drain", instance, operation)
            contexts.take_along(world, worker, asked)
            return operation
    return None


def return_early(world, worker):
    """A drain before its turn returns. The record of an operation that was collected meanwhile goes with the last one."""
    place = world.inside(worker, "early drain")
    refuse_if(place is None, WRONG_STEP)
    last_entry(place.operation, "drain", place.instance, "running").state = "finished"
    world.places[worker] = None
    contexts.empty_hand(world, worker)
    forget(world, place.operation)


def forget(world, operation):
    """Its record goes, if it was collected and no drain of it runs."""
    if operation.is_collected and not any(it.state == "running" for it in operation.entries):
        del world.operations[operation.number]


def collect(world, operation):
    """Hands the reply out, once."""
    refuse_if(operation.is_collected or not is_done(world, operation), WRONG_STEP)
    operation.is_collected = True
    forget(world, operation)
    return operation.answer
