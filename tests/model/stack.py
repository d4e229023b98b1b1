"""Filters, volumes and instances: loaded, mounted, attached, torn down, and the routines of a filter."""
import contexts
import operations
from status import (
    ALREADY_LOADED,
    ALTITUDE_COLLISION,
    BAD_REQUEST,
    DELETING_OBJECT,
    DISMOUNTING,
    DO_NOT_ATTACH,
    DO_NOT_DETACH,
    NAME_COLLISION,
    NO_HANDLE,
    NO_INSTANCE,
    NOT_LOADED,
    TOO_MANY,
    WRONG_STEP,
    refuse_busy,
    refuse_if,
)
import files
from world import MOST_INSTANCES, MOST_LOADS, MOST_STANDING, MOST_VOLUMES, Filter, Instance, Place, Volume


def load(world, name, form):
    """Registers a filter."""
    refuse_if(any(it.name == name and it.phase != "gone" for it in world.filters), ALREADY_LOADED)
    refuse_if(len(world.filters) >= MOST_LOADS, TOO_MANY)
    world.filters.append(Filter(len(world.filters), name, form))
    return world.filters[-1]


def mount(world, name):
    """Mounts a volume. A dismounted one keeps its name."""
    refuse_if(any(it.name == name for it in world.volumes), NAME_COLLISION)
    refuse_if(len(world.volumes) >= MOST_VOLUMES, TOO_MANY)
    world.volumes.append(Volume(len(world.volumes), name))
    return world.volumes[-1]


def refuse_worker(world, worker):
    """The worker has to be idle."""
    refuse_if(not world.is_idle(worker), WRONG_STEP)


def returning(world, worker, word):
    """Lets the worker's callback of that kind return (30 in none): its hand is emptied. Answers the place."""
    place = world.inside(worker, word)
    refuse_if(place is None, WRONG_STEP)
    world.places[worker] = None
    contexts.empty_hand(world, worker)
    return place


def attach(world, worker, filter_, volume, name, altitude):
    """Makes an instance. The worker is in its setup callback."""
    refuse_worker(world, worker)
    refuse_if(filter_.phase != "loaded", NOT_LOADED)
    refuse_if(volume.is_dismounting, DISMOUNTING)
    refuse_if(any(it.name == name for it in volume.instances), NAME_COLLISION)
    refuse_if(any(it.altitude == altitude for it in volume.instances), ALTITUDE_COLLISION)
    refuse_if(len(volume.instances) >= MOST_STANDING or len(world.instances) >= MOST_INSTANCES, TOO_MANY)
    instance = Instance(len(world.instances), filter_, volume, name, altitude)
    world.instances.append(instance)
    volume.instances.append(instance)
    world.places[worker] = Place("setup", instance)
    return instance


def end_setup(world, worker, accepts):
    """The setup callback returns. An instance that wasn't accepted, or the filter or volume of which went meanwhile, is being emptied."""
    instance = returning(world, worker, "setup").instance
    has_gone = instance.filter.phase != "loaded" or instance.volume.is_dismounting
    if not accepts or has_gone:
        empty(world, instance)
    refuse_if(not accepts, DO_NOT_ATTACH)
    refuse_if(has_gone, DELETING_OBJECT)
    instance.phase, instance.birth = "attached", world.births
    world.births += 1


def empty(world, instance):
    """The instance is being emptied: all its contexts are taken off."""
    instance.phase = "emptying"
    contexts.unlink_of(world, instance)


def is_asked(world, instance):
    """Whether its query callback runs."""
    return any(it is not None and it.word == "query" and it.instance is instance for it in world.places.values())


def ask_detach(world, worker, instance):
    """Asks the filter whether the instance may be detached."""
    refuse_worker(world, worker)
    refuse_if(instance.phase == "detached", NO_INSTANCE)
    refuse_if(instance.phase != "attached" or is_asked(world, instance), DELETING_OBJECT)
    refuse_if(not instance.filter.has_routines, DO_NOT_DETACH)
    world.places[worker] = Place("query", instance)


def end_query(world, worker, allows):
    """The query callback returns."""
    instance = returning(world, worker, "query").instance
    refuse_if(not allows, DO_NOT_DETACH)
    refuse_if(instance.phase != "attached", DELETING_OBJECT)
    instance.phase = "stopping"


def start(world, worker, instance):
    """The worker is in the callback that starts the teardown."""
    refuse_worker(world, worker)
    refuse_if(instance.phase == "detached", NO_INSTANCE)
    refuse_if(instance.phase != "stopping" or instance.is_started, WRONG_STEP)
    instance.is_started = True
    world.places[worker] = Place("start", instance)


def end_start(world, worker):
    """That callback returns."""
    returning(world, worker, "start").instance.has_start_returned = True


def routines_of(world, instance):
    """How many workers are in routines of its filter for it."""
    return sum(it is not None and it.word == "routine" and it.instance is instance for it in world.places.values())


def complete(world, worker, instance):
    """The worker is in the callback that completes the teardown, once nothing of the instance is under way."""
    refuse_worker(world, worker)
    refuse_if(instance.phase == "detached", NO_INSTANCE)
    refuse_if(instance.phase != "stopping" or not instance.has_start_returned or is_asked(world, instance), WRONG_STEP)
    refuse_busy(operations.in_flight(world, instance) + operations.began(world, instance) + routines_of(world, instance))
    instance.phase = "completing"
    world.places[worker] = Place("complete", instance)


def end_complete(world, worker):
    """That callback returns: the instance is being emptied."""
    empty(world, returning(world, worker, "complete").instance)


def finish(world, instance):
    """Ends an instance, once all its contexts are cleaned up, and what its filter began for itself was collected."""
    refuse_if(instance.phase == "detached", NO_INSTANCE)
    refuse_if(instance.phase != "emptying", WRONG_STEP)
    refuse_busy(contexts.not_cleaned(world, instance) + operations.began(world, instance))
    instance.phase = "detached"
    instance.volume.instances.remove(instance)


def enter_routine(world, worker, instance, handle):
    """The worker enters a routine, on no file or on a handle's."""
    refuse_worker(world, worker)
    refuse_if(instance.phase == "detached", NO_INSTANCE)
    refuse_if(instance.phase not in ("attached", "stopping"), DELETING_OBJECT)
    if handle is not None:
        refuse_if(handle.is_gone, NO_HANDLE)
        refuse_if(handle.stream.volume is not instance.volume, BAD_REQUEST)
    world.places[worker] = Place("routine", instance, handle=handle)


def leave_routine(world, worker):
    """That routine returns."""
    returning(world, worker, "routine")


def ask_unload(world, worker, filter_):
    """Asks the filter whether it may be unloaded."""
    refuse_worker(world, worker)
    refuse_if(filter_.phase != "loaded", NOT_LOADED)
    refuse_if(is_unload_asked(world, filter_), DELETING_OBJECT)
    refuse_if(not filter_.has_routines, DO_NOT_DETACH)
    world.places[worker] = Place("unload", filter=filter_)


def is_unload_asked(world, filter_):
    """Whether its unload callback runs."""
    return any(it is not None and it.word == "unload" and it.filter is filter_ for it in world.places.values())


def stop(instances):
    """Those of them that are attached are stopping."""
    for instance in instances:
        if instance.phase == "attached":
            instance.phase = "stopping"


def end_unload(world, worker, allows):
    """The unload callback returns."""
    filter_ = returning(world, worker, "unload").filter
    refuse_if(not allows, DO_NOT_DETACH)
    filter_.phase = "unloading"
    stop(it for it in world.instances if it.filter is filter_)


def empty_filter(world, filter_):
    """Takes the filter's volume contexts off, once its instances are detached."""
    refuse_if(filter_.phase != "unloading" or is_unload_asked(world, filter_), WRONG_STEP)
    refuse_busy(sum(it.filter is filter_ and it.phase != "detached" for it in world.instances))
    contexts.unlink_of(world, filter_)
    filter_.is_emptied = True


def finish_filter(world, filter_):
    """Ends the filter."""
    refuse_if(filter_.phase != "unloading" or not filter_.is_emptied, WRONG_STEP)
    refuse_busy(contexts.not_cleaned(world, filter_))
    filter_.phase = "gone"


def dismount(world, volume):
    """The volume's attached instances are stopping, and nobody is asked."""
    refuse_if(volume.is_dismounting, DISMOUNTING)
    refuse_busy(sum(it.volume is volume for it in world.uncollected()))
    volume.is_dismounting = True
    stop(volume.instances)


def drop_handle(world, volume):
    """Closes the lowest open handle on it, without callbacks; a marked file stays. Answers it, or None."""
    refuse_if(not volume.is_dismounting, WRONG_STEP)
    handle = next(iter(world.open_handles(volume)), None)
    if handle is not None:
        files.close_handle(world, handle)
    return handle


def empty_volume(world, volume):
    """Takes off the contexts that are set on the volume, of every filter."""
    refuse_if(not volume.is_dismounting, WRONG_STEP)
    refuse_busy(len(world.open_handles(volume)) + len(volume.instances))
    contexts.unlink_from(world, volume)
    volume.is_emptied = True


def finish_volume(world, volume):
    """Ends it."""
    refuse_if(not volume.is_emptied or volume.is_finished, WRONG_STEP)
    refuse_busy(contexts.not_cleaned(world, None, volume))
    volume.is_finished = True
