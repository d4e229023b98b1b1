"""What there is between two events, as plain lists. What can be derived isn't stored: counts, what is in flight, what is owed, the next instance."""
from base import Devices

MOST_LOADS, MOST_VOLUMES = 16, 8
MOST_STANDING, MOST_INSTANCES = 32, 4096
MOST_HANDLES, MOST_OPERATIONS = 4096, 256
MOST_CONTEXTS, MOST_BODY, MOST_HELD = 65536, 4096, 16
MOST_BYTES, MOST_END = 32768, 2**40


class Filter:
    """A load. Its phase is loaded, unloading or gone."""

    def __init__(self, number, name, form):
        self.number, self.name, self.phase, self.is_emptied = number, name, "loaded", False
        self.has_pre, self.has_post = form != "only-post", form != "only-pre"
        self.has_contexts = self.has_routines = form != "bare"


class Volume:
    """A volume with its folder, from paths to bytes. `instances` are those on it that aren't detached."""

    def __init__(self, number, name):
        self.number, self.name, self.folder, self.instances = number, name, {}, []
        self.is_dismounting = self.is_emptied = self.is_finished = False


class Instance:
    """An instance. Its phase is setup, attached, stopping, completing, emptying or detached. `birth` says how many were attached before it."""

    def __init__(self, number, filter_, volume, name, altitude):
        self.number, self.filter, self.volume, self.name, self.altitude = number, filter_, volume, name, altitude
        self.phase, self.birth = "setup", None
        self.is_started = self.has_start_returned = False


class Stream:
    """The file of a path, while a handle or a create under way is on it."""

    def __init__(self, volume, path):
        self.volume, self.path, self.is_marked, self.is_gone = volume, path, False, False


class Handle:
    """A handle. `cleanup` is the operation that cleans it up; `is_closing` says that a close was begun."""

    def __init__(self, number, stream):
        self.number, self.stream, self.cleanup, self.is_closing, self.is_gone = number, stream, None, False, False


class Context:
    """A context. Its owner is an instance, or of a volume context a filter. Its state is live, due, cleaning or cleaned."""

    def __init__(self, number, kind, owner, volume, body):
        self.number, self.kind, self.owner, self.volume, self.body = number, kind, owner, volume, body
        self.link, self.state = None, "live"


class Place:
    """Where a worker is: in which callback or call, of which instance, of which operation, on which handle."""

    def __init__(self, word, instance=None, operation=None, **more):
        self.word, self.instance, self.operation = word, instance, operation
        self.filter, self.context, self.handle, self.call = (more.get(name) for name in ("filter", "context", "handle", "call"))


class Entry:
    """A step of an operation: a pre, base, post or drain with its state, its worker, and the context that its completion carries."""

    def __init__(self, word, instance, state, worker=None):
        self.word, self.instance, self.state, self.worker, self.context = word, instance, state, worker, None


class Operation:
    """An operation. `initiator` is the instance whose filter began it for itself, `start` says where: client, top, below or base; `answer` is status, information, bytes."""

    def __init__(self, number, kind, params, born):
        self.number, self.kind, self.params, self.born = number, kind, params, born
        self.volume = self.stream = self.handle = self.path = self.initiator = None
        self.start, self.is_under_way, self.is_collected = "client", False, False
        self.entries, self.answer = [], (0, 0, b"")


def first_of(contexts):
    """The first of them."""
    return contexts[0]


class World:
    """All of it. `begun` are all operations that ever were, `operations` those that have a record, by number; `event` is the number of the event that runs.

    `choose` says which of several contexts that became due in one event comes first: that is free.
    """

    def __init__(self):
        self.filters, self.volumes, self.instances, self.streams = [], [], [], []
        self.handles, self.operations, self.contexts = [], {}, []
        self.begun, self.births, self.leaks, self.cleaned, self.event = [], 0, 0, 0, 0
        self.due, self.linked = [], []
        self.places = {worker: None for worker in range(16)}
        self.hands = {worker: [] for worker in range(16)}
        self.devices = Devices()
        self.choose = first_of

    def is_idle(self, worker):
        """Whether it is in no callback and no call."""
        return self.places[worker] is None

    def inside(self, worker, word):
        """The worker's place, if that is such a callback or call."""
        place = self.places[worker]
        return place if place is not None and place.word == word else None

    def open_handles(self, volume=None):
        """The handles that aren't closed, of one volume or of all, from the lowest on."""
        return [it for it in self.handles if not it.is_gone and volume in (None, it.stream.volume)]

    def uncollected(self):
        """The operations whose reply wasn't handed out."""
        return [it for it in self.operations.values() if not it.is_collected]
