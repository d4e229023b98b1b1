"""Streams and handles: opened, closed, marked for deletion, torn down."""
import contexts
from world import Handle, Stream


def stream_at(world, volume, path):
    """The stream of that path, a new one if there is none."""
    found = next((it for it in world.streams if it.volume is volume and it.path == path), None)
    if found is None:
        found = Stream(volume, path)
        world.streams.append(found)
    return found


def handles_on(world, stream):
    """Its handles that aren't closed."""
    return [it for it in world.handles if it.stream is stream and not it.is_gone]


def creates_on(world, stream):
    """Its creates that are under way."""
    return [it for it in world.operations.values() if it.is_under_way and it.stream is stream]


def let_go(world, stream):
    """Tears the stream down, and its mark with it, if no handle and no create under way is on it."""
    if not handles_on(world, stream) and not creates_on(world, stream):
        stream.is_gone = True
        world.streams.remove(stream)
        contexts.unlink_from(world, stream)


def open_handle(world, stream):
    """The handle of the next number."""
    handle = Handle(len(world.handles), stream)
    world.handles.append(handle)
    return handle


def close_handle(world, handle):
    """Closes it: its contexts are taken off, and the last one tears the stream down."""
    handle.is_gone = True
    contexts.unlink_from(world, handle)
    let_go(world, handle.stream)


def unlinks(world, handle):
    """Whether the close of that handle takes the file away: it is the last one, no create is under way, and the file is marked."""
    return handles_on(world, handle.stream) == [handle] and not creates_on(world, handle.stream) and handle.stream.is_marked
