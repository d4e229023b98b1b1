"""A script: each line is answered as docs/SCRIPT.md says."""
import contexts
import operations
import stack
from status import BUSY, Refused
from words import MOST_LINE, REQUESTS, find_ids, read_line
from world import World

# What is begun, for the words that don't say it themselves.
KINDS = {"querysize": "size", "setdelete": "delete", "otherv": "other"}


def spell_bytes(bytes_):
    """As a script spells them."""
    return bytes_.hex() or "-"


def spell_refusal(refused):
    """`no S`, with how many are in the way, or with the context that comes along."""
    if refused.status == BUSY:
        return f"no 34 {refused.number}"
    return f"no {refused.status}" + (f" c{refused.old.number}" if refused.old else "")


def spell_reply(answer):
    """The reply of an operation."""
    return f"reply {answer[0]} {answer[1]} {spell_bytes(answer[2])}"


def spell_old(old):
    """Success, with the context that comes into the hand."""
    return f"ok c{old.number}" if old else "ok"


class Script:
    """A run of lines over one World. `reached` counts for each command how often it succeeded (0) and each of its refusals."""

    def __init__(self):
        self.world, self.plans, self.reached = World(), {}, {}

    def find(self, slot, number):
        """The thing of an id, or None if it was never printed."""
        world = self.world
        rows = {"F": world.filters, "V": world.volumes, "I": world.instances, "H": world.handles, "C": world.contexts, "O": world.begun}[slot]
        return rows[number] if number < len(rows) else None

    def answer(self, line):
        """The lines that a line prints."""
        if not line or line.startswith(b"#") and len(line) <= MOST_LINE:
            return []
        self.world.event += 1
        try:
            name, read = read_line(line)
            said = getattr(self, "do_" + name)(*find_ids(name, read, self.find)) or "ok"
            self.note(line, 0)
        except Refused as refused:
            said = spell_refusal(refused)
            self.note(line, refused.status)
        return said if isinstance(said, list) else [said]

    def note(self, line, status):
        """Counts what a command came to; requests below, at the base, at the top, and changes each by their own word."""
        words = line.decode("latin-1").split(" ")
        inner = {"below": 2, "atbase": 1, "attop": 1, "change_held": 3}.get(words[0], 0)
        if words[0] == "atbase" and words[2:] and words[1] not in REQUESTS:
            inner = 2
        name = " ".join([words[0], *words[inner : inner + 1]]) if inner else words[0]
        row = self.reached.setdefault(name, {})
        row[status] = row.get(status, 0) + 1

    def do_load(self, name, form=None):
        return f"ok f{stack.load(self.world, name, form).number}"

    def do_mount(self, name):
        return f"ok v{stack.mount(self.world, name).number}"

    def do_setup(self, worker, filter_, volume, name, altitude):
        return f"ok i{stack.attach(self.world, worker, filter_, volume, name, altitude).number}"

    def do_attach(self, *words):
        said = self.do_setup(0, *words)
        stack.end_setup(self.world, 0, True)
        return said

    def do_setdone(self, worker, word):
        stack.end_setup(self.world, worker, word == "yes")

    def do_phase(self, instance):
        return instance.phase

    def do_flight(self, instance):
        return f"flight {operations.in_flight(self.world, instance)}"

    def do_query(self, worker, instance):
        stack.ask_detach(self.world, worker, instance)

    def do_queried(self, worker, word):
        stack.end_query(self.world, worker, word == "yes")

    def do_start(self, worker, instance):
        stack.start(self.world, worker, instance)

    def do_started(self, worker):
        stack.end_start(self.world, worker)

    def do_drain(self, worker, instance):
        operation = operations.drain_early(self.world, worker, instance)
        return f"drain o{operation.number}" if operation else "none"

    def do_drained(self, worker):
        operations.return_early(self.world, worker)

    def do_complete(self, worker, instance):
        stack.complete(self.world, worker, instance)

    def do_completed(self, worker):
        stack.end_complete(self.world, worker)

    def do_enter(self, worker, instance, handle=None):
        stack.enter_routine(self.world, worker, instance, handle)

    def do_left(self, worker):
        stack.leave_routine(self.world, worker)

    def do_finish(self, instance):
        stack.finish(self.world, instance)

    def do_unload(self, worker, filter_):
        stack.ask_unload(self.world, worker, filter_)

    def do_unloaded(self, worker, word):
        stack.end_unload(self.world, worker, word == "yes")

    def do_emptyf(self, filter_):
        stack.empty_filter(self.world, filter_)

    def do_finishf(self, filter_):
        stack.finish_filter(self.world, filter_)

    def do_dismount(self, volume):
        stack.dismount(self.world, volume)

    def do_drop(self, volume):
        handle = stack.drop_handle(self.world, volume)
        return f"ok h{handle.number}" if handle else "none"

    def do_emptyv(self, volume):
        stack.empty_volume(self.world, volume)

    def do_finishv(self, volume):
        stack.finish_volume(self.world, volume)

    def do_create(self, volume, path, mode):
        return f"ok o{operations.begin(self.world, 'create', (mode,), volume=volume, path=path).number}"

    def request(self, word, thing, *params, **begins):
        """Begins a request on a handle or a volume."""
        place = {"volume": thing} if word in ("list", "otherv") else {"handle": thing}
        return f"ok o{operations.begin(self.world, KINDS.get(word, word), params, **place, **begins).number}"

    def do_below(self, instance, word, *rest):
        return self.request(word, *rest, start="below", initiator=instance)

    def do_atbase(self, first, *rest):
        if isinstance(first, str):
            return self.request(first, *rest, start="base")
        return self.request(*rest, start="base", initiator=first)

    def do_attop(self, word, *rest):
        return self.request(word, *rest, start="top")

    def do_next(self, worker, operation):
        word, instance = operations.next_step(self.world, worker, operation)
        return f"{word} i{instance.number}" if instance and word != "moved" else word

    def do_pre(self, worker, verdict, more=None):
        if verdict == "complete":
            operations.return_pre(self.world, worker, verdict, status=more)
        else:
            operations.return_pre(self.world, worker, verdict, context=more)

    def do_base(self, worker):
        operations.return_base(self.world, worker)

    def do_post(self, worker, word):
        operations.return_post(self.world, worker, word == "more")

    def do_resume(self, worker, operation, verdict, status=None):
        operations.resume_pre(self.world, worker, operation, verdict, status)

    def do_change_held(self, worker, operation, kind, *params):
        operations.change_held(self.world, worker, operation, kind, params)

    def do_respost(self, worker, operation):
        operations.resume_post(self.world, worker, operation)

    def do_plan(self, instance, verdict, status=None):
        self.plans[instance] = (verdict, status)

    def do_go(self, worker, operation):
        said = []
        while not said or said[-1].split(" ")[0] not in ("held", "reply", "no"):
            self.world.event += 1
            try:
                word, instance = operations.next_step(self.world, worker, operation)
                said += self.carry(worker, operation, word, instance)
            except Refused as refused:
                said.append(spell_refusal(refused))
        return said

    def carry(self, worker, operation, word, instance):
        """What `go` does after that `next`, and prints."""
        self.world.event += 1
        if word == "pre":
            verdict, status = self.plans.get(instance, ("with", None))
            operations.return_pre(self.world, worker, verdict, status)
            return [f"pre i{instance.number} {verdict}" + ("" if status is None else f" {status}")]
        if word == "base":
            return [f"base {operations.return_base(self.world, worker)}"]
        if word == "moved":
            return [] if instance else [f"base {operation.answer[0]}"]
        if word == "done":
            return [spell_reply(operations.collect(self.world, operation))]
        if word == "held":
            return ["held"]
        operations.return_post(self.world, worker, False)
        return [f"{word} i{instance.number}"]

    def do_collect(self, operation):
        return spell_reply(operations.collect(self.world, operation))

    def do_alloc(self, worker, kind, body):
        return f"ok c{contexts.allocate(self.world, worker, kind, body).number}"

    def do_set(self, worker, context, mode, old=None):
        return spell_old(contexts.set_context(self.world, worker, context, mode == "keep", old == "old"))

    def do_get(self, worker, kind):
        return f"ok c{contexts.get(self.world, worker, kind).number}"

    def do_del(self, worker, kind, old=None):
        return spell_old(contexts.delete(self.world, worker, kind, old == "old"))

    def do_ref(self, worker, context):
        contexts.reference(self.world, worker, context)

    def do_rel(self, worker, context):
        contexts.release(self.world, worker, context)

    def do_body(self, worker, context):
        return f"body {spell_bytes(contexts.read_body(self.world, worker, context))}"

    def do_wbody(self, worker, context, body):
        contexts.write_body(self.world, worker, context, body)

    def do_bump(self, worker, context, place, by):
        return f"ok {contexts.bump(self.world, worker, context, place, by)}"

    def do_due(self, worker):
        context = contexts.take_due(self.world, worker)
        return f"cleanup c{context.number}" if context else "none"

    def do_cleaned(self, worker):
        contexts.clean(self.world, worker)

    def do_count(self, context):
        return f"count {contexts.count(self.world, context)}" if context.state == "live" else context.state

    def do_leaks(self):
        return f"leaks {self.world.leaks}"

    def do_fail(self, number):
        self.world.devices.fail(number)

    def do_failures(self):
        return f"failures {self.world.devices.failures}"


def request_command(word):
    """The method of a request's command: `read`, `size` and their kin begin alike."""
    return lambda self, *words: self.request(word, *words)


for request in ("read", "write", "size", "querysize", "setsize", "flush", "delete", "setdelete", "restore", "cleanup", "close", "list", "other", "otherv"):
    setattr(Script, "do_" + request, request_command(request))
