#!/usr/bin/env python3
"""Makes lists of requests, each with the callbacks that it leads to and what it is answered, by the model: every manager is held to them.

    tests/model/lists.py [--lists N] [--seed S] [--constant NAME]

It prints the lists of lists.txt, which were written by hand, and N random ones (200) of the seed (0), in the form of crates/test_recorder/src/order.rt. With `--constant` they are a
constant of Rattle. A list with a dismount says so in its name. A request of which the pages leave open in which order its callbacks come is in no list.
"""
import argparse
import pathlib
import pickle
import random
import sys

sys.dont_write_bytecode = True
from manager import Manager
from recorders import NAMES

MOST_INSTANCES, MOST_REQUESTS = 6, 24
ALTITUDES = ["100", "200", "200.5", "300", "45000", "7", "60.25", "1000"]
PATHS = ["a", "b", "c"]


class Maker:
    """A list under way."""

    def __init__(self, seed):
        self.random, self.manager, self.lines = random.Random(f"list {seed}"), Manager(), []
        self.has_dismount = False

    def say(self, request):
        """Adds a request with what it leads to, unless the order of that is open."""
        manager = pickle.loads(pickle.dumps(self.manager))
        told = manager.ask(*request.split(" "))
        if manager.is_open or manager.holds_many():
            return False
        self.manager = manager
        self.lines += [request, *(f"saw {it}" for it in manager.seen)]
        # Of several replies the host's expectation means the last.
        if not manager.has_late:
            self.lines.append("expect held" if told == "held" else f"expect status {told}")
        return True

    def attach(self, number=None):
        """Another instance of a filter that is loaded, or of that one."""
        world = self.manager.world
        number = self.random.randrange(len(world.filters)) if number is None else number
        recorder = self.manager.recorders[world.filters[number]]
        return f"attach {number} 0 {recorder.name}-{len(recorder.instances) + 1} {self.random.choice(ALTITUDES)}"

    def request(self):
        """Any request that fits what is there."""
        world, number = self.manager.world, self.random.randrange
        if not world.open_handles() or number(12) == 0:
            return f"create 0 {self.random.choice(['always', 'always', 'always', 'existing', 'new'])} {self.random.choice(PATHS)}"
        handle = self.random.choice(world.open_handles()).number
        ways = [f"read {handle} 0 {number(1, 4)}"] * 6 + [f"flush {handle}"] * 3 + [f"write {handle} {number(3)} 6162", f"setsize {handle} {number(4)}", f"querysize {handle}", "list 0"]
        ways += [f"detach {number(len(world.instances))}"] if world.instances else []
        ways += [f"unload {number(len(world.filters))}"] * (number(3) == 0)
        ways += [self.attach()] if len(world.instances) < MOST_INSTANCES else []
        ways += [f"close {handle}"] if self.may_close(handle) else []
        return self.random.choice(ways)

    def may_close(self, handle):
        """Whether no operation is held on it: the kit closes no file before what is under way there has ended."""
        return not any(it.handle is self.manager.world.handles[handle] for it in self.manager.world.uncollected())

    def finish(self):
        """Unloads all, until nothing changes any more."""
        while True:
            before = len(self.lines)
            for number, filter_ in enumerate(self.manager.world.filters):
                if filter_.phase != "gone" and not self.say(f"unload {number}"):
                    return False
            if not any(line.startswith("saw ") for line in self.lines[before:]):
                return True


def make(seed):
    """A random list, or None if its end is open."""
    maker = Maker(seed)
    for name in maker.random.sample([it for it in NAMES if it != "deny" or maker.random.randrange(5) == 0], maker.random.randrange(2, 5)):
        maker.say(f"load {name}")
    maker.say("create 0 always a")
    for number in range(len(maker.manager.world.filters)):
        while not maker.manager.recorders[maker.manager.world.filters[number]].instances:
            maker.say(maker.attach(number))
    # The host says so if a filter sees nothing.
    maker.say("querysize 0")
    for _ in range(maker.random.randrange(6, MOST_REQUESTS)):
        maker.say(maker.request())
    is_dismount = maker.random.randrange(8) == 0
    if is_dismount and not maker.say("dismount 0"):
        return None
    if not maker.finish():
        return None
    return "\n".join([f"# {'a dismount, ' if is_dismount else ''}random {seed}", *maker.lines])


def written():
    """The lists that were written by hand."""
    return pathlib.Path(__file__).with_name("lists.txt").read_text(encoding="utf-8").strip().split("\n\n")


def main():
    """The program."""
    words = argparse.ArgumentParser(description=__doc__, formatter_class=argparse.RawDescriptionHelpFormatter)
    words.add_argument("--lists", type=int, default=200)
    words.add_argument("--seed", default="0")
    words.add_argument("--constant")
    asked = words.parse_args()
    made, at = written(), 0
    wanted = len(made) + asked.lists
    while len(made) < wanted:
        one = make(f"{asked.seed}.{at}")
        made += [one] if one else []
        at += 1
    text = "\n\n".join(made)
    print(f'/// Made by tests/model/lists.py.\npub const {asked.constant}: &str = "\n{text}\n";' if asked.constant else text)


if __name__ == "__main__":
    main()
