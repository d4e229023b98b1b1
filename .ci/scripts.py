#!/usr/bin/env python3
"""Makes random scripts, the same for the same seed and the same answers.

    .ci/scripts.py FLTVIEW SEED [LINES]     prints the script of a seed

Most of their lines are done: files are opened, operations go down and come back, contexts are taken and forgotten, sent along where they count and where they
don't, instances are torn down amid all that. Some lines are refused, some can't be read, and some expect what may come.
"""
import json
import random
import subprocess
import sys

if sys.argv[1:2] in (["-h"], ["--help"]):
    print(__doc__.strip())
    sys.exit(0)

WORKERS = ["w0", "w1", "w2", "w3"]
ENDS = ["SetUp", "Pre", "Post", "PostHeld", "Drained", "Queried", "Started", "EarlyDrained", "Completed", "RoutineReturned", "Unloaded", "Cleaned"]
KINDS = ["volume", "instance", "stream", "handle", "file"]
ALTITUDES = ["5", "12.50", "100", "235", "320000"]
PATHS = ["a", "b", "deny/x", "sub/long-name"]
ODD = [b"", b"laod f", b"go  w0 o0", b"\xff\\", b"# <a remark> & \xe9", b"attach f0 v0 a 1.2.3", b"write h0 0 abc", b"mount v\xe9", b"x" * 4097]


class Maker:
    """A script under way, played to a program line by line, so that most lines fit what came of those before them."""

    def __init__(self, program, seed):
        self.random = random.Random(seed)
        self.lines = []
        self.given = {letter: [] for letter in "fvihoc"}
        self.places = {}
        self.program = subprocess.Popen([program, "--json"], stdin=subprocess.PIPE, stdout=subprocess.PIPE)

    def close(self):
        self.program.stdin.close()
        self.program.stdout.read()
        self.program.wait()

    def play(self, line):
        """The objects that the program tells of a line. A comment behind it tells when they are over."""
        self.program.stdin.write(line + b"\n#over\n")
        self.program.stdin.flush()
        told = []
        while True:
            answer = self.program.stdout.readline()
            if not answer:
                return told
            one = json.loads(answer)
            if one["event"] == "Comment" and one["command"] == "#over":
                return told
            told.append(one)

    def say(self, text):
        self.put(text.encode())

    def put(self, line):
        self.lines.append(line)
        for told in self.play(line):
            self.learn(told)

    def learn(self, told):
        """What ids a line gave, and where its worker is."""
        event, worker = told["event"], told.get("worker")
        news = {"Loaded": "filter", "Mounted": "volume", "Attached": "instance", "InSetup": "instance", "Began": "operation", "Allocated": "context", "Replied": "handle"}
        made = told.get(news.get(event, ""))
        if made:
            self.given[made[0]].append(made)
        if event.startswith("In") and worker:
            self.places[worker] = (event, told.get("operation"))
        elif event in ENDS and worker:
            self.places.pop(worker, None)
        elif event == "Base":
            self.places = {name: place for name, place in self.places.items() if place != ("InBase", told["operation"])}

    def any(self, letter):
        """An id that was given, mostly one of the last, and rarely one that wasn't."""
        given = self.given[letter]
        if not given or self.random.random() < 0.02:
            return f"{letter}{len(given)}"
        return given[max(0, len(given) - 1 - int(self.random.expovariate(0.7)))]

    def idle(self):
        """A worker that is in nothing, mostly."""
        idle = [name for name in WORKERS if name not in self.places]
        return self.random.choice(idle if idle and self.random.random() < 0.97 else WORKERS)

    def load(self):
        option = self.random.choice(["", "", "", " only-pre", " only-post", " bare"])
        self.say(f"load f{len(self.given['f'])}{option}")

    def mount(self):
        self.say(f"mount v{len(self.given['v'])}")

    def attach(self):
        where = f"{self.any('f')} {self.any('v')} n{len(self.given['i'])} {self.random.choice(ALTITUDES)}"
        self.say(f"attach {where}" if self.random.random() < 0.6 else f"setup {self.idle()} {where}")

    def begin(self):
        """An operation, which a worker may take all its way."""
        handle = self.any("h")
        size = self.random.randrange(9)
        asks = [
            f"create {self.any('v')} {self.random.choice(PATHS)} {self.random.choice(['always', 'always', 'new', 'existing'])}",
            f"read {handle} 0 {size}",
            f"write {handle} 0 {'41' * size or '-'}",
            f"list {self.any('v')}",
            f"{self.random.choice(['size', 'flush', 'delete', 'restore', 'cleanup', 'close'])} {handle}",
            f"setsize {handle} {size}",
            f"other {handle} {self.random.choice([17, 20, 249])} {size}",
            f"otherv {self.any('v')} 10 {size}",
        ]
        self.say(self.random.choice(asks[:1] * 3 + asks[1:]))
        if self.random.random() < 0.4:
            self.say(f"go {self.idle()} {self.any('o')}")

    def step(self):
        word = self.random.choice(["next", "next", "go"])
        self.say(f"{word} {self.idle()} {self.any('o')}")

    def use_contexts(self, worker):
        """What a callback may do with contexts, and what it may forget."""
        context = self.any("c")
        self.say(self.random.choice([
            f"alloc {worker} {self.random.choice(KINDS)} 00a9",
            f"alloc {worker} {self.random.choice(KINDS)} 00a9",
            f"get {worker} {self.random.choice(KINDS)}",
            f"set {worker} {context} {self.random.choice(['keep', 'replace', 'replace old'])}",
            f"rel {worker} {context}",
            f"ref {worker} {context}",
            f"del {worker} {self.random.choice(KINDS)} old",
            f"body {worker} {context}",
        ]))

    def pre(self):
        context = f" {self.any('c')}" if self.random.random() < 0.5 else ""
        return self.random.choice([f"with{context}", f"with{context}", "none", f"sync{context}", "pend", "complete 17", "complete 0"])

    def goes_on(self):
        """A worker that is in something uses contexts there, or comes back."""
        if not self.places:
            return self.step()
        worker = self.random.choice(sorted(self.places))
        event, _ = self.places[worker]
        if event not in ("InBase", "InCleanup") and self.random.random() < 0.5:
            return self.use_contexts(worker)
        answers = {
            "InSetup": "setdone W yes", "InPre": f"pre W {self.pre()}", "InBase": "base W", "InDrain": "post W done", "InCleanup": "cleaned W",
            "InPost": self.random.choice(["post W done", "post W done", "post W more"]), "InQuery": "queried W yes", "InStart": "started W",
            "InEarlyDrain": "drained W", "InComplete": "completed W", "InRoutine": "left W", "InUnload": "unloaded W yes",
        }
        return self.say(answers[event].replace("W", worker))

    def resume(self):
        verdict = self.random.choice(["with", "none", "complete 17"])
        self.say(self.random.choice([f"resume {self.idle()} {self.any('o')} {verdict}", f"respost {self.idle()} {self.any('o')}"]))

    def teardown(self):
        worker, instance = self.idle(), self.any("i")
        self.say(self.random.choice([f"query {worker} {instance}"] * 2 + [f"start {worker} {instance}"] * 2 + [f"drain {worker} {instance}", f"complete {worker} {instance}", f"finish {instance}"]))

    def routine(self):
        worker, instance = self.idle(), self.any("i")
        self.say(self.random.choice([f"enter {worker} {instance}", f"enter {worker} {instance} {self.any('h')}"]))

    def end(self):
        self.say(self.random.choice([f"unload {self.idle()} {self.any('f')}", f"dismount {self.any('v')}", f"drop {self.any('v')}", f"emptyv {self.any('v')}", f"emptyf {self.any('f')}"]))

    def clean(self):
        self.say(f"due {self.idle()}")

    def plan(self):
        self.say(f"plan {self.any('i')} {self.random.choice(['with', 'none', 'sync', 'pend', 'complete 17', 'complete 0'])}")

    def ask(self):
        self.say(self.random.choice(["leaks", "failures", f"count {self.any('c')}", f"phase {self.any('i')}", f"flight {self.any('i')}", f"fail {self.random.randrange(9)}"]))

    def expect(self):
        self.say("#! expect " + self.random.choice(["ok", "ok f0", "no 25", "no 30", "pre i0", "leaks 1"]))

    def odd(self):
        self.put(self.random.choice(ODD))


MOVES = [
    (Maker.load, 1), (Maker.mount, 1), (Maker.attach, 4), (Maker.begin, 10), (Maker.step, 10), (Maker.goes_on, 30), (Maker.resume, 2), (Maker.routine, 2), (Maker.teardown, 3),
    (Maker.end, 0.3), (Maker.clean, 2), (Maker.plan, 2), (Maker.ask, 1), (Maker.expect, 1), (Maker.odd, 1),
]


def script(program, seed, lines=120):
    """The script of a seed, of about so many lines, played to fltview."""
    maker = Maker(program, seed)
    for move in (Maker.load, Maker.mount, Maker.attach):
        move(maker)
    moves, weights = zip(*MOVES)
    while len(maker.lines) < lines:
        maker.random.choices(moves, weights)[0](maker)
    maker.close()
    return b"\n".join(maker.lines) + b"\n"


if __name__ == "__main__":
    if not 3 <= len(sys.argv) <= 4 or not all(word.isdigit() for word in sys.argv[2:]):
        sys.exit(__doc__)
    sys.stdout.buffer.write(script(sys.argv[1], *map(int, sys.argv[2:])))
