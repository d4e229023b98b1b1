"""Contexts: allocated, set on objects, held in hands, sent along, due and cleaned up."""
import itertools

from status import (
    ALREADY_DEFINED,
    ALREADY_LINKED,
    BAD_REQUEST,
    DELETING_OBJECT,
    HAND_FULL,
    NO_CONTEXT,
    NO_OBJECT,
    NOT_HELD,
    NOT_REGISTERED,
    TOO_MANY,
    WRONG_STEP,
    Refused,
    refuse_if,
)
from world import MOST_BODY, MOST_CONTEXTS, MOST_HELD, Context, Place

# Where a worker is in a callback of an instance.
CALLBACKS = ("setup", "pre", "post", "drain", "early drain", "query", "start", "complete", "routine")


def count(world, context):
    """One if it is set, one for each time that a hand has it, and one for each completion that carries it."""
    in_hands = sum(hand.count(context) for hand in world.hands.values())
    sent = sum(entry.context is context for operation in world.operations.values() for entry in operation.entries)
    return (context.link is not None) + in_hands + sent


def settle(world, context):
    """At zero it is due."""
    if context.state == "live" and count(world, context) == 0:
        context.state = "due"
        world.due.append((world.event, context))


def unlink(world, contexts):
    """Takes these off what they are set on."""
    for context in contexts:
        context.link = None
        world.linked.remove(context)
        settle(world, context)


def unlink_from(world, thing):
    """Takes off all contexts that are set on an object, of whichever instance."""
    unlink(world, [it for it in world.linked if it.link is thing])


def unlink_of(world, owner):
    """Takes off all contexts of an instance, or all volume contexts of a filter."""
    unlink(world, [it for it in world.linked if it.owner is owner])


def empty_hand(world, worker):
    """A callback returns: what is left in its worker's hand is released, and counted as leaked."""
    left, world.hands[worker] = world.hands[worker], []
    world.leaks += len(left)
    for context in left:
        settle(world, context)


def send_along(world, worker, entry, context):
    """Moves a context out of the hand into a completion; one that isn't in the hand counts as none."""
    if context in world.hands[worker]:
        world.hands[worker].remove(context)
        entry.context = context


def take_along(world, worker, asked):
    """What went along with a completion is in the hand again."""
    if asked.context is not None:
        world.hands[worker].append(asked.context)
        asked.context = None


def callback_of(world, worker):
    """The worker's place, which has to be a callback or a routine of an instance: 30."""
    place = world.places[worker]
    refuse_if(place is None or place.word not in CALLBACKS, WRONG_STEP)
    return place


def owner_of(place, kind):
    """Whose the contexts of that kind are there."""
    return place.instance.filter if kind == "volume" else place.instance


def handle_of(place):
    """The handle of the place's file, if it has one."""
    return place.handle if place.word == "routine" else place.operation and place.operation.handle


def object_of(place, kind):
    """What a context of that kind is set on there: 27 if there is no such object. Streams and files are told apart by the kind alone."""
    if kind == "volume":
        return place.instance.volume
    if kind == "instance":
        return place.instance
    handle = handle_of(place)
    refuse_if(handle is None, NO_OBJECT)
    return handle if kind == "handle" else handle.stream


def is_gone(place, kind):
    """Whether the place's object of that kind is a closed handle, or a stream that isn't there any more."""
    return kind in ("stream", "handle", "file") and object_of(place, kind).is_gone


def found(world, place, kind):
    """The context of that kind that the place's owner has set on its object."""
    owner, thing = owner_of(place, kind), object_of(place, kind)
    return next((it for it in world.linked if it.link is thing and it.owner is owner and it.kind == kind), None)


def is_full(world, worker):
    """Whether the hand has no room."""
    return len(world.hands[worker]) >= MOST_HELD


def registered_place(world, worker, kind):
    """The worker's place in a callback (30) of a filter that registered for contexts of that kind (21)."""
    place = callback_of(world, worker)
    refuse_if(not place.instance.filter.has_contexts, NOT_REGISTERED)
    return place


def held(world, worker, context):
    """The worker's place in a callback (30), and the context has to be in its hand (25)."""
    place = callback_of(world, worker)
    refuse_if(context not in world.hands[worker], NOT_HELD)
    return place


def allocate(world, worker, kind, body):
    """A context of count one, in the hand."""
    place = registered_place(world, worker, kind)
    refuse_if(len(body) > MOST_BODY or len(world.contexts) - world.cleaned >= MOST_CONTEXTS, TOO_MANY)
    refuse_if(is_full(world, worker), HAND_FULL)
    context = Context(len(world.contexts), kind, owner_of(place, kind), place.instance.volume, body)
    world.contexts.append(context)
    world.hands[worker].append(context)
    return context


def is_going(place):
    """Whether nothing may be set there any more."""
    return place.instance.phase not in ("setup", "attached") or place.instance.volume.is_dismounting


def set_context(world, worker, context, is_keep, wants_old):
    """Sets it on the callback's object of its kind. Answers the old one, if it is wanted and there is one."""
    place = held(world, worker, context)
    refuse_if(context.link is not None, ALREADY_LINKED)
    thing, old = object_of(place, context.kind), found(world, place, context.kind)
    refuse_if(is_going(place) or is_gone(place, context.kind), DELETING_OBJECT)
    refuse_if(wants_old and old is not None and is_full(world, worker), HAND_FULL)
    if old is not None and wants_old:
        world.hands[worker].append(old)
    if old is not None and is_keep:
        raise Refused(ALREADY_DEFINED, old=old if wants_old else None)
    if old is not None:
        unlink(world, [old])
    context.link = thing
    world.linked.append(context)
    return old if wants_old else None


def get(world, worker, kind):
    """A reference to what is set there."""
    place = registered_place(world, worker, kind)
    object_of(place, kind)
    refuse_if(is_gone(place, kind), DELETING_OBJECT)
    context = found(world, place, kind)
    refuse_if(context is None, NO_CONTEXT)
    refuse_if(is_full(world, worker), HAND_FULL)
    world.hands[worker].append(context)
    return context


def delete(world, worker, kind, wants_old):
    """Takes off what is set there. Answers it, if it is wanted."""
    place = registered_place(world, worker, kind)
    object_of(place, kind)
    context = found(world, place, kind)
    refuse_if(context is None, NO_CONTEXT)
    refuse_if(wants_old and is_full(world, worker), HAND_FULL)
    if wants_old:
        world.hands[worker].append(context)
    unlink(world, [context])
    return context if wants_old else None


def reference(world, worker, context):
    """One reference more."""
    held(world, worker, context)
    refuse_if(is_full(world, worker), HAND_FULL)
    world.hands[worker].append(context)


def release(world, worker, context):
    """One reference fewer."""
    held(world, worker, context)
    world.hands[worker].remove(context)
    settle(world, context)


def read_body(world, worker, context):
    """Its bytes."""
    held(world, worker, context)
    return context.body


def write_body(world, worker, context, body):
    """Puts other bytes of the same length there."""
    held(world, worker, context)
    refuse_if(len(body) != len(context.body), BAD_REQUEST)
    context.body = body


def bump(world, worker, context, place, by):
    """Adds to the big-endian number of eight bytes there. Answers the new one."""
    held(world, worker, context)
    refuse_if(place + 8 > len(context.body), BAD_REQUEST)
    value = (int.from_bytes(context.body[place : place + 8], "big") + by) % 2**64
    context.body = context.body[:place] + value.to_bytes(8, "big") + context.body[place + 8 :]
    return value


def take_due(world, worker):
    """Puts an idle worker into the cleanup of the context that has been due longest. Answers it, or None."""
    refuse_if(not world.is_idle(worker), WRONG_STEP)
    if not world.due:
        return None
    together = [row[1] for row in itertools.takewhile(lambda row: row[0] == world.due[0][0], world.due)]
    context = world.choose(together)
    del world.due[together.index(context)]
    context.state = "cleaning"
    world.places[worker] = Place("cleanup", context=context)
    return context


def clean(world, worker):
    """The cleanup callback returns."""
    place = world.inside(worker, "cleanup")
    refuse_if(place is None, WRONG_STEP)
    place.context.state = "cleaned"
    world.cleaned += 1
    world.places[worker] = None


def not_cleaned(world, owner, volume=None):
    """How many contexts of an owner, or of a volume, aren't cleaned up."""
    if volume is not None:
        return sum(it.kind == "volume" and it.volume is volume and it.state != "cleaned" for it in world.contexts)
    return sum(it.owner is owner and it.state != "cleaned" for it in world.contexts)
