"""Makes a script line by line, while the model plays it, so that most lines fit what came of those before them."""
import random

from contexts import CALLBACKS
from script import Script
from words import FORMS, REQUESTS

NAMES = ["a", "b", "c", "d-1", "e_2", "f", "g", "h", "x" * 32]
ALTITUDES = ["1", "20", "100", "100.0", "0100", "100.5", "200", "300.25", "385000", ".5", "7.", "64000", "42", "9.75", "1" * 64]
PATHS = ["a", "b", "sub/c", "deny/x", "a.txt"]
KINDS = ["volume", "instance", "stream", "handle", "file"]
NUMBERS = ["0", "1", "2", "3", "8", "15", "100", "4096", "32768", "32769", str(2**40 - 1), str(2**40), str(2**40 + 1), str(2**64 - 1), str(2**64)]
BODIES = ["-", "00", "0102030405060708", "ff" * 9, "61", "6162"]
ODD_WORDS = ["", "-1", "+1", "0x1", "i", "w", "h-1", "A", "ff0", "FF", "..", "a/../b", "1.2.3", "x" * 33, "x" * 256, "with", "old", "34", "c99999"]
MODES = ["existing", "new", "always", "always", "always"]
VERDICTS = ["with", "with", "with", "none", "sync", "pend", "pend", "complete"]


class Maker:
    """A script under way. `answers` has for each of its lines what the model says."""

    def __init__(self, seed):
        self.random, self.script, self.lines, self.answers = random.Random(seed), Script(), [], []
        self.world = self.script.world

    def say(self, line):
        """Adds a line."""
        bytes_ = line.encode("latin-1")
        self.lines.append(bytes_)
        self.answers.append(self.script.answer(bytes_))

    def is_likely(self, part):
        """True in that part of all cases."""
        return self.random.random() < part

    def any(self, things):
        """One of them, or None."""
        things = list(things)
        return self.random.choice(things) if things else None

    def number(self, few=4):
        """A small number mostly, or one at a limit."""
        return str(self.random.randrange(few)) if self.is_likely(0.9) else self.any(NUMBERS)

    def status(self):
        """A status that a verdict completes with."""
        return self.any([0, 0, 17, 5, 19, 33, self.random.randrange(34)])

    def worker(self):
        """One of four workers, or rarely another."""
        return f"w{self.random.randrange(4) if self.is_likely(0.97) else self.random.randrange(18)}"

    def idle(self):
        """A worker, mostly one that is idle."""
        free = [it for it in range(5) if self.world.is_idle(it)]
        return f"w{self.any(free)}" if free and self.is_likely(0.95) else self.worker()

    def id(self, letter, things, all_):
        """The id of one of these things mostly, else of any, else of none that is there."""
        found = self.any(things) if self.is_likely(0.93) else None
        count = len(all_)
        return f"{letter}{found.number if found else self.random.randrange(count + 1 if self.is_likely(0.2) else max(1, count))}"

    def filter(self):
        return self.id("f", [it for it in self.world.filters if it.phase != "gone"], self.world.filters)

    def volume(self):
        return self.id("v", [it for it in self.world.volumes if not it.is_finished], self.world.volumes)

    def instance(self):
        return self.id("i", [it for it in self.world.instances if it.phase != "detached"], self.world.instances)

    def handle(self):
        return self.id("h", self.world.open_handles()[-6:], self.world.handles)

    def operation(self):
        return self.id("o", self.world.uncollected(), self.world.begun)

    def context(self, worker=None):
        """One that the worker holds, or else one that isn't cleaned up."""
        held = [it for hand in self.world.hands.values() for it in hand] if worker is None else self.world.hands.get(int(worker[1:]), [])
        return self.id("c", held or [it for it in self.world.contexts[-40:] if it.state != "cleaned"], self.world.contexts)

    def verdict(self):
        """A preoperation's, as a script spells it."""
        verdict = self.any(VERDICTS)
        return f"complete {self.status()}" if verdict == "complete" else verdict

    def request(self):
        """A request on a handle or a volume, but no create and no write."""
        word = self.any(REQUESTS)
        thing = self.volume() if REQUESTS[word] == ["V"] or word == "otherv" else self.handle()
        if word == "read":
            return f"read {thing} {self.number(6)} {self.number(8)}"
        if word == "setsize":
            return f"setsize {thing} {self.number(12)}"
        if word in ("other", "otherv"):
            return f"{word} {thing} {self.any([17, 5, 6, 12, 13, 27, self.random.randrange(30)])} {self.number()}"
        return f"{word} {thing}"

    def word_for(self, slot):
        """A word for a slot of a form, whatever it comes to."""
        if self.is_likely(0.02):
            return self.any(ODD_WORDS)
        small = {"F": self.filter, "V": self.volume, "I": self.instance, "H": self.handle, "O": self.operation, "C": self.context, "W": self.worker}
        if slot in small:
            return small[slot]()
        pools = {"NAME": NAMES, "ALTITUDE": ALTITUDES, "PATH": PATHS, "HEX": BODIES, "MAJOR": [str(it) for it in range(30)]}
        if slot in pools:
            return self.any(pools[slot])
        if slot == "N":
            return self.number(10)
        return str(self.random.randrange(35)) if slot == "S" else self.any(slot.split("|"))

    def wild(self):
        """Any command in any of its forms."""
        name = self.any(FORMS)
        words = [name] + [self.word_for(slot) for slot in self.any(FORMS[name]).split()]
        if self.is_likely(0.01):
            words.insert(self.random.randrange(len(words) + 1), self.any(ODD_WORDS))
        if self.is_likely(0.01):
            words.pop()
        return " ".join(words)

    def in_callback(self):
        """A worker in a callback of an instance, or None."""
        return self.any(it for it, place in self.world.places.items() if place is not None and place.word in CALLBACKS)
