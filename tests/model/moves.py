"""The moves of which random scripts are made: each answers a line, or several."""
from maker import ALTITUDES, BODIES, KINDS, MODES, NAMES, PATHS, Maker

# How a worker leaves the place that it is in.
RETURNS = {"base": "base", "drain": "post {} done", "early drain": "drained", "start": "started", "complete": "completed", "routine": "left", "cleanup": "cleaned"}
ANSWERS = {"setup": "setdone", "query": "queried", "unload": "unloaded"}


def build(maker):
    """A filter, a volume, an instance, or how a `go` answers for one."""
    name, altitude = maker.any(NAMES), maker.any(ALTITUDES)
    return maker.any(
        [
            f"load {name}{maker.any(['', '', '', ' only-pre', ' only-post', ' bare'])}",
            f"mount {name}",
            f"attach {maker.filter()} {maker.volume()} {name} {altitude}",
            f"attach {maker.filter()} {maker.volume()} {name} {altitude}",
            f"setup {maker.idle()} {maker.filter()} {maker.volume()} {name} {altitude}",
            f"plan {maker.instance()} {maker.verdict()}",
            f"plan {maker.instance()} with",
        ]
    )


def begin(maker):
    """An operation, a client's, or one below an instance, at the base or at the top."""
    if not maker.world.open_handles() or maker.is_likely(0.1):
        return f"create {maker.volume()} {maker.any(PATHS)} {maker.any(MODES)}"
    if maker.is_likely(0.15):
        return f"write {maker.handle()} {maker.number(6)} {maker.any(BODIES)}"
    where = "" if maker.is_likely(0.75) else maker.any(["atbase ", "attop ", f"atbase {maker.instance()} ", f"below {maker.instance()} ", f"below {maker.instance()} "])
    if maker.is_likely(0.5):
        return where + maker.any([f"read {maker.handle()} 0 4", f"flush {maker.handle()}", f"size {maker.handle()}"])
    return where + maker.request()


def run(maker):
    """Carries an operation to its end, or as far as it goes."""
    return f"go {maker.idle()} {maker.operation()}"


def go_on(maker):
    """A worker that is somewhere comes back, or an idle one is given something."""
    worker, place = maker.any(maker.world.places.items())
    if maker.is_likely(0.6):
        worker, place = maker.any([it for it in maker.world.places.items() if it[1] is not None] or [(worker, place)])
    if place is None:
        return give(maker)
    if place.word in ANSWERS:
        return f"{ANSWERS[place.word]} w{worker} {'yes' if maker.is_likely(0.8) else 'no'}"
    if place.word == "post":
        return f"post w{worker} {'done' if maker.is_likely(0.8) else 'more'}"
    if place.word == "pre":
        along = maker.world.hands[worker] and maker.is_likely(0.5)
        return f"pre w{worker} " + (f"with {maker.context(f'w{worker}')}" if along else maker.verdict())
    leave = RETURNS[place.word]
    return leave.format(f"w{worker}") if "{}" in leave else f"{leave} w{worker}"


def give(maker):
    """An idle worker is given a step of an operation, a cleanup or a routine."""
    worker = maker.idle()
    on = f" {maker.handle()}" if maker.is_likely(0.6) else ""
    ways = [f"next {worker} {maker.operation()}"] * 8 + [f"enter {worker} {maker.instance()}{on}"] * 2 + [f"collect {maker.operation()}"]
    return maker.any(ways + [f"due {worker}"] * (2 if maker.world.due else 0))


def use(maker):
    """A worker in a callback does something with contexts, or resumes what its instance holds."""
    inside = maker.in_callback()
    if inside is None:
        return give(maker)
    place, hand, worker = maker.world.places[inside], maker.world.hands[inside], f"w{inside}"
    held = [it for it in maker.world.uncollected() if any(entry.state == "held" and entry.instance is place.instance for entry in it.entries)]
    if held and maker.is_likely(0.5) or maker.is_likely(0.05):
        return resume(maker, worker, held or maker.world.begun)
    there = [it.kind for it in maker.world.linked if it.owner in (place.instance, place.instance.filter)]
    kind, old = maker.any(there if there and maker.is_likely(0.6) else KINDS), maker.any(["", " old"])
    ways = [f"alloc {worker} {kind} {maker.any(BODIES)}"] * (1 if hand else 4) + [f"get {worker} {kind}", f"del {worker} {kind}{old}"]
    return maker.any(ways + held_ways(maker, worker, hand, old) if hand or maker.is_likely(0.1) else ways)


def held_ways(maker, worker, hand, old):
    """What may be done with a context that is in the hand: mostly it is."""
    free = [it for it in hand if it.link is None]
    context, other = maker.context(worker), f"c{maker.any(free).number}" if free else maker.context()
    sets = [f"set {worker} {other} {mode}{old}" for mode in ("keep", "replace")]
    bodies = [f"body {worker} {context}", f"wbody {worker} {context} {maker.any(BODIES)}", f"bump {worker} {context} {maker.number(2)} {maker.number()}"]
    return sets * 2 + bodies + [f"ref {worker} {context}", f"rel {worker} {context}", f"rel {worker} {context}"]


def resume(maker, worker, held):
    """Lets one of these operations go on, or changes what it will ask."""
    one = maker.any(held)
    operation = f"o{one.number}" if one and maker.is_likely(0.9) else maker.operation()
    major = one.params[0] if one and one.kind == "other" else 17
    changes = {"read": f"read {maker.number(6)} {maker.number(8)}", "setsize": f"setsize {maker.number(9)}", "other": f"other {major} {maker.number()}"}
    change = changes[one.kind] if one and one.kind in changes and maker.is_likely(0.7) else maker.any(changes.values())
    verdict = maker.any(["with", "none", f"complete {maker.status()}"])
    ways = [f"resume {worker} {operation} {verdict}", f"change_held {worker} {operation} {change}"]
    return maker.any(ways + [f"respost {worker} {operation}"] * (2 if one and any(it.word == "post" for it in one.entries) else 1))


def read(maker):
    """What there is."""
    counted = f"count {maker.context()}" if maker.world.contexts else "leaks"
    return maker.any([f"phase {maker.instance()}", f"flight {maker.instance()}", counted, counted, counted, "leaks", "failures"])


def fail(maker):
    """A call of the device that will fail, soon."""
    return f"fail {maker.world.devices.calls + maker.random.randrange(6)}"


def tear(maker):
    """The next step of a teardown."""
    instance = maker.any(it for it in maker.world.instances if it.phase != "detached")
    if instance is None or maker.is_likely(0.35):
        return tear_more(maker)
    worker, name = maker.idle(), f"i{instance.number}"
    next_one = f"complete {worker} {name}" if instance.has_start_returned else f"start {worker} {name}"
    steps = {"attached": [f"query {worker} {name}"], "stopping": [next_one, next_one, f"drain {worker} {name}"], "emptying": [f"finish {name}", f"due {worker}"]}
    return maker.any(steps.get(instance.phase, [f"finish {name}", f"complete {worker} {name}"]))


def tear_more(maker):
    """The next step of a filter's unload, or of a dismount."""
    worker, world = maker.idle(), maker.world
    filter_ = maker.id("f", [it for it in world.filters if it.phase == "unloading"], world.filters)
    volume = maker.id("v", [it for it in world.volumes if it.is_dismounting and not it.is_finished], world.volumes)
    steps = [f"emptyf {filter_}", f"finishf {filter_}", f"drop {volume}", f"emptyv {volume}", f"finishv {volume}", f"due {worker}", f"due {worker}"]
    if maker.is_likely(0.2):
        steps += [f"unload {worker} {maker.filter()}", f"dismount {maker.volume()}"]
    return maker.any(steps)


def fill(maker):
    """Sets a context, takes references until the hand is full, and then one more in each way."""
    worker, kind, next_one = maker.in_callback(), maker.any(KINDS), len(maker.world.contexts)
    if worker is None:
        return use(maker)
    w, one, two = f"w{worker}", f"c{next_one}", f"c{next_one + 1}"
    two_made = [f"alloc {w} {kind} 00", f"set {w} {one} keep", f"alloc {w} {kind} 01", f"set {w} {two} keep{maker.any(['', ' old'])}"]
    more = [f"get {w} {kind}", f"del {w} {kind} old", f"alloc {w} {kind} 00", f"set {w} {two} {maker.any(['keep', 'replace'])} old"]
    return two_made + [f"ref {w} {two}"] * (15 - len(maker.world.hands[worker])) + more


def leave(maker):
    """All workers come back, and all operations go on, so that a teardown may end."""
    return [f"left w{worker}" for worker, place in maker.world.places.items() if place is not None and place.word == "routine"] + [
        f"go {maker.idle()} o{it.number}" for it in maker.world.uncollected()[:8]
    ]


# How often each move is made, in the kinds of scripts.
KINDS_OF_SCRIPTS = {
    "plain": {build: 2, begin: 6, run: 8, go_on: 4, use: 5, read: 3, fail: 0.3, leave: 0.5},
    "race": {build: 1, begin: 5, run: 1, go_on: 12, use: 12, read: 4, fail: 0.3, fill: 0.1},
    "teardown": {build: 3, begin: 3, run: 3, go_on: 9, use: 8, read: 3, tear: 9, leave: 0.3, fill: 0.05},
    "wild": {build: 2, begin: 3, run: 1, go_on: 6, use: 6, read: 2, tear: 3, Maker.wild: 8, fill: 0.2},
}


def make(kind, seed, lines):
    """A random script of that kind, of about so many lines."""
    maker = Maker(f"{kind} {seed}")
    moves = KINDS_OF_SCRIPTS[kind]
    for name in ("f", "g"):
        maker.say(f"load {name}{maker.any(['', '', '', ' only-pre', ' only-post', ' bare'])}")
    maker.say("mount v")
    for number in range(maker.random.randrange(1, 5)):
        maker.say(f"attach f{maker.random.randrange(2)} v0 n{number} {maker.random.randrange(1, 400)}")
    maker.say("create v0 a always")
    maker.say("go w0 o0")
    while len(maker.lines) < lines:
        made = maker.random.choices(list(moves), list(moves.values()))[0](maker)
        for line in [made] if isinstance(made, str) else made:
            maker.say(line)
    return maker
