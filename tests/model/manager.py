"""A manager of recorders on one thread: what each request leads to, and what it is answered.

What is resumed goes on in the order of its resumption, after the request, or the callback of a teardown, that resumed it. A detach and an unload answer 34 while something is
in the way; called again they go on where they stopped. Due contexts are cleaned up.
"""
import contexts
import operations
import stack
from names import read_altitude
from recorders import Recorder
from status import Refused
from world import World

SPELLED = {"size": "querysize", "delete": "setdelete"}
WORKER = 0
MOST_HELD = 3


class Manager:
    """`seen` are the callbacks of the request under way, `has_late` says that something that was held ended in it. `is_open`: another order of the callbacks would be as right."""

    def __init__(self):
        self.world, self.recorders = World(), {}
        self.seen, self.resumed, self.cleanups, self.is_open, self.has_late = [], [], 0, False, False
        stack.mount(self.world, "v0")

    def ask(self, word, *words):
        """Makes a request. Answers a status, or `held`."""
        self.seen, self.cleanups, self.is_open, self.has_late = [], 0, False, False
        self.world.event += 1
        try:
            told = getattr(self, "ask_" + word)(*words) or 0
        except Refused as refused:
            told = refused.status
        self.carry_resumed()
        self.clean_up()
        return told

    def see(self, callback, instance, operation=None):
        """Notes a callback. When in a request a context is cleaned up is open."""
        recorder = self.recorders[instance.filter]
        kind = f" {SPELLED.get(operation.kind, operation.kind)}" if operation else ""
        self.seen.append(f"{callback} {recorder.name}-{recorder.instances.index(instance) + 1}{kind}")
        self.is_open = self.is_open or self.cleanups > 0
        return recorder

    def clean_up(self):
        """Cleans up what is due."""
        while True:
            context = contexts.take_due(self.world, WORKER)
            if context is None:
                return
            owner = context.owner if context.kind == "volume" else context.owner.filter
            self.seen.append(f"cleanup {self.recorders[owner].name} {context.kind}")
            self.cleanups += 1
            self.is_open = self.is_open or self.cleanups > 1
            contexts.clean(self.world, WORKER)

    def carry(self, operation):
        """Carries an operation on until it is held or done. Answers its status, or `held`."""
        while True:
            self.world.event += 1
            word, instance = operations.next_step(self.world, WORKER, operation)
            if word == "held":
                return word
            if word == "done":
                return operations.collect(self.world, operation)[0]
            if word == "base":
                operations.return_base(self.world, WORKER)
            elif instance and word != "moved":
                self.call(word, instance, operation)
            self.clean_up()

    def call(self, word, instance, operation):
        """Makes a callback of an operation."""
        recorder = self.see(word, instance, operation)
        if word == "pre":
            verdict, status, context, gone = recorder.pre(self.world, WORKER, self.world.places[WORKER])
            self.resumed += gone
            operations.return_pre(self.world, WORKER, verdict, status, context)
        else:
            is_more = recorder.post(self.world, WORKER, self.world.places[WORKER], word == "drain")
            operations.return_post(self.world, WORKER, is_more)

    def holds_many(self):
        """Whether an instance holds more than a recorder lets go at once."""
        return any(sum(it[1] is instance for it in recorder.held) > MOST_HELD for recorder in self.recorders.values() for instance in recorder.instances)

    def carry_resumed(self):
        """Carries on what was resumed. Answers whether that called anybody."""
        before = len(self.seen)
        while self.resumed:
            self.has_late = self.carry(self.resumed.pop(0)) != "held" or self.has_late
        return len(self.seen) > before

    def ask_load(self, name):
        filter_ = stack.load(self.world, name, None)
        self.recorders[filter_] = Recorder(name)

    def ask_attach(self, filter_, volume, name, altitude):
        world = self.world
        instance = stack.attach(world, WORKER, world.filters[int(filter_)], world.volumes[int(volume)], name, read_altitude(altitude))
        self.recorders[instance.filter].instances.append(instance)
        self.see("setup", instance).setup(world, WORKER)
        stack.end_setup(world, WORKER, True)

    def begin(self, kind, params, **more):
        """Begins an operation on a handle or a volume, and carries it on."""
        return self.carry(operations.begin(self.world, kind, params, **more))

    def on_handle(self, kind, handle, *params):
        """A request on a handle."""
        return self.begin(kind, params, handle=self.world.handles[int(handle)])

    def ask_create(self, volume, mode, path):
        return self.begin("create", (mode,), volume=self.world.volumes[int(volume)], path=path)

    def ask_read(self, handle, offset, length):
        return self.on_handle("read", handle, int(offset), int(length))

    def ask_write(self, handle, offset, bytes_):
        return self.on_handle("write", handle, int(offset), bytes.fromhex(bytes_))

    def ask_querysize(self, handle):
        return self.on_handle("size", handle)

    def ask_setsize(self, handle, size):
        return self.on_handle("setsize", handle, int(size))

    def ask_flush(self, handle):
        return self.on_handle("flush", handle)

    def ask_setdelete(self, handle):
        return self.on_handle("delete", handle)

    def ask_list(self, volume):
        return self.begin("list", (), volume=self.world.volumes[int(volume)])

    def ask_close(self, handle):
        """A cleanup, unless that has begun, and then the close."""
        if self.world.handles[int(handle)].cleanup is None:
            self.on_handle("cleanup", handle)
        return self.on_handle("close", handle)

    def ask_detach(self, number):
        instance = self.world.instances[int(number)]
        if instance.phase != "stopping":
            stack.ask_detach(self.world, WORKER, instance)
            self.see("query", instance)
            stack.end_query(self.world, WORKER, True)
        self.tear_down(instance)

    def tear_down(self, instance):
        """From where its teardown is: its start with the drains that are owed, what that resumed, its completion, its end."""
        world, has_called = self.world, False
        if instance.phase == "stopping" and not instance.is_started:
            stack.start(world, WORKER, instance)
            self.resumed += self.see("start", instance).start(world, WORKER, instance)
            stack.end_start(world, WORKER)
            self.drain(instance)
            has_called = self.carry_resumed()
        if instance.phase == "stopping":
            stack.complete(world, WORKER, instance)
            # Whether what the start lets go on comes before the completion is open.
            self.is_open = self.is_open or has_called
            self.see("complete", instance)
            stack.end_complete(world, WORKER)
        self.clean_up()
        stack.finish(world, instance)

    def drain(self, instance):
        """Takes all drains that are owed to it."""
        while True:
            operation = operations.drain_early(self.world, WORKER, instance)
            if operation is None:
                return
            self.see("drain", instance, operation).post(self.world, WORKER, self.world.places[WORKER], True)
            operations.return_early(self.world, WORKER)
            self.clean_up()

    def ask_unload(self, number):
        """Ends its instances, one after the other, up to the first that something is in the way of."""
        world, filter_ = self.world, self.world.filters[int(number)]
        if filter_.phase != "unloading":
            stack.ask_unload(world, WORKER, filter_)
            self.seen.append(f"unload {self.recorders[filter_].name}")
            stack.end_unload(world, WORKER, True)
        for instance in [it for it in world.instances if it.filter is filter_ and it.phase != "detached"]:
            self.tear_down(instance)
        stack.empty_filter(world, filter_)
        self.clean_up()
        stack.finish_filter(world, filter_)

    def ask_dismount(self, number):
        """Ends the instances of the volume, its handles, and the volume."""
        world, volume = self.world, self.world.volumes[int(number)]
        if not volume.is_dismounting:
            stack.dismount(world, volume)
        for instance in list(volume.instances):
            self.tear_down(instance)
        while stack.drop_handle(world, volume) is not None:
            pass
        stack.empty_volume(world, volume)
        self.clean_up()
        stack.finish_volume(world, volume)
