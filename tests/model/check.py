#!/usr/bin/env python3
"""Compares a program that runs scripts with a plain model of the manager, line by line.

    tests/model/check.py PROGRAM [--lines N] [--seed S] [--kind KIND ..] [--stored FOLDER] [--all]

PROGRAM is an fltscript. N random lines (50,000) are made from the seed (0), in the kinds plain, race, teardown, wild; with `--kind` in these alone, where `limits` and
`refused` (memory) may stand too. With `--stored` the scripts of a folder come first. `--all` has all kinds, and then it is a failure if a command, or one of its
refusals, wasn't reached.

The model is written from the pages (docs/SCRIPT.md), and not from the crates. At a difference the shortest script that shows it is printed, and the status is 1.
"""
import argparse
import pathlib
import sys

sys.dont_write_bytecode = True
import coverage
import limits
import moves
import playing
import refused

SCRIPT_LINES = 400
OTHER_KINDS = ["limits", "refused"]


class Check:
    """A run over many scripts: how many lines were compared, what each command came to, how many scripts differed."""

    def __init__(self, program):
        self.program, self.lines, self.scripts, self.differing, self.reached = program, 0, 0, 0, {}

    def count(self, lines, script):
        """Counts a script that was compared."""
        self.lines += len(lines)
        self.scripts += 1
        for command, row in script.reached.items():
            known = self.reached.setdefault(command, {})
            for status, times in row.items():
                known[status] = known.get(status, 0) + times

    def compare(self, name, lines, script, answers):
        """Compares one script, the answers of which the model has given."""
        said, status = playing.run(self.program, lines)
        if not playing.is_met(answers, said, status) and playing.parts(lines, said, status):
            playing.tell(name, self.program, lines)
            self.differing += 1
        self.count(lines, script)

    def play(self, name, lines):
        """Compares a script that stands there already."""
        script = playing.Script()
        self.compare(name, lines, script, [script.answer(line) for line in lines])

    def stored(self, folder):
        """The scripts of a folder, and of those in it."""
        for file in sorted(pathlib.Path(folder).rglob("*.flt")):
            lines = file.read_bytes().split(b"\n")
            self.play(str(file), lines if lines[-1] else lines[:-1])

    def random(self, kind, seed, lines):
        """Random scripts of a kind."""
        made = 0
        while made < lines:
            maker = moves.make(kind, f"{seed}.{made}", min(SCRIPT_LINES, lines - made + 20))
            self.compare(f"{kind} {seed}.{made}", maker.lines, maker.script, maker.answers)
            made += len(maker.lines)

    def step(self, name, step):
        """Makes a step, and prints what came of it."""
        lines, scripts, differing = self.lines, self.scripts, self.differing
        step()
        print(f"{name}: {self.lines - lines} lines of {self.scripts - scripts} scripts, {self.differing - differing} of them differ", flush=True)

    def limits(self):
        """The scripts that reach the limits."""
        for made in limits.LIMITS:
            self.play(made.__name__, [line.encode() for line in made()])

    def refused(self, seed, lines):
        """Scripts in which one allocation after the other is refused."""
        for name, difference, made in refused.runs(self.program, seed, lines):
            self.lines += made
            self.scripts += 1
            if difference:
                self.differing += 1
                print(f"{name}: {difference}")


def main():
    """The program: its exit status."""
    words = argparse.ArgumentParser(description=__doc__, formatter_class=argparse.RawDescriptionHelpFormatter)
    words.add_argument("program")
    words.add_argument("--lines", type=int, default=50000)
    words.add_argument("--seed", default="0")
    words.add_argument("--kind", action="append", choices=[*moves.KINDS_OF_SCRIPTS, *OTHER_KINDS])
    words.add_argument("--stored")
    words.add_argument("--all", action="store_true")
    asked = words.parse_args()
    check = Check(asked.program)
    kinds = asked.kind or [*moves.KINDS_OF_SCRIPTS, *(OTHER_KINDS if asked.all else [])]
    lines = asked.lines // len(kinds)
    steps = {"stored": lambda: check.stored(asked.stored)} if asked.stored else {}
    for kind in kinds:
        steps[kind] = {"limits": check.limits, "refused": lambda: check.refused(asked.seed, lines)}.get(kind, lambda kind=kind: check.random(kind, asked.seed, lines))
    for name, step in steps.items():
        check.step(name, step)
    missed = list(coverage.missed(check.reached)) if asked.all else []
    for line in missed:
        print(f"never reached: {line}")
    print(f"{check.lines} lines compared, seed {asked.seed}: {check.differing} scripts differ" + (f", {len(missed)} refusals never reached" if asked.all else ""))
    return 1 if check.differing or missed else 0


if __name__ == "__main__":
    sys.exit(main())
