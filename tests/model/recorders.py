"""The filters that note what they see, as c/tests/drivers/recorder.c has them: what each answers it knows by its name.

`with` and `none` ask for every postoperation, or for none; `hold` pends reads and changes of a size; `late` pends reads and lets only the first go at a teardown; `keep`
holds the postoperations of reads; `carry` sends a context of the handle along, `meter` sets two; `deny` completes creates, and `sync` has reads synchronized.
"""
import contexts
import operations
from status import ACCESS_DENIED, Refused

NAMES = ["with", "none", "hold", "late", "keep", "carry", "meter", "deny", "sync"]


class Recorder:
    """A filter of that name: what it holds, the first that came first."""

    def __init__(self, name):
        self.name, self.held, self.instances = name, [], []

    def let_go(self, world, worker, instance, verdict, most=16):
        """Lets go on what the instance holds, up to so many. Answers these."""
        mine = [it for it in self.held if it[1] is instance][:most]
        self.held = [it for it in self.held if it not in mine]
        for operation, _ in mine:
            if self.name == "keep":
                operations.resume_post(world, worker, operation)
            else:
                operations.resume_pre(world, worker, operation, verdict)
        return [operation for operation, _ in mine]

    def setup(self, world, worker):
        """Accepts."""
        if self.name == "meter":
            self.set_one(world, worker, "instance")

    def set_one(self, world, worker, kind):
        """Sets a context, if there is none, and releases it."""
        try:
            context = contexts.get(world, worker, kind)
        except Refused:
            context = contexts.allocate(world, worker, kind, b"\0")
            contexts.set_context(world, worker, context, True, False)
        contexts.release(world, worker, context)

    def of_handle(self, world, worker):
        """The context of the handle, with a reference."""
        try:
            return contexts.get(world, worker, "handle")
        except Refused:
            context = contexts.allocate(world, worker, "handle", b"\0")
        try:
            contexts.set_context(world, worker, context, True, False)
        except Refused:
            pass
        return context

    def pre(self, world, worker, place):
        """Its verdict, the status of a Complete, the context that goes along, and what it let go."""
        kind = place.operation.kind
        if kind == "read" and self.name in ("hold", "late") or kind == "setsize" and self.name == "hold":
            self.held.append((place.operation, place.instance))
            return "pend", None, None, []
        if kind == "flush" and self.name in ("hold", "late", "keep"):
            return "with", None, None, self.let_go(world, worker, place.instance, "with")
        if kind == "create" and self.name == "deny":
            return "complete", ACCESS_DENIED, None, []
        if kind == "read":
            return *self.pre_read(world, worker), []
        return "with" if self.name == "with" else "none", None, None, []

    def pre_read(self, world, worker):
        """The same of a read that it doesn't hold."""
        if self.name == "carry":
            return "with", None, self.of_handle(world, worker)
        if self.name == "meter":
            self.set_one(world, worker, "stream")
        verdicts = {"sync": "sync", "keep": "with", "with": "with"}
        return verdicts.get(self.name, "none"), None, None

    def post(self, world, worker, place, is_drain):
        """Whether it holds the operation."""
        for context in list(world.hands[worker]):
            contexts.release(world, worker, context)
        is_kept = self.name == "keep" and place.operation.kind == "read" and not is_drain
        if is_kept:
            self.held.append((place.operation, place.instance))
        return is_kept

    def start(self, world, worker, instance):
        """Lets go what it holds; `late` the first alone."""
        return self.let_go(world, worker, instance, "none", 1 if self.name == "late" else 16)
