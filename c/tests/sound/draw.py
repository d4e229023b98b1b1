#!/usr/bin/env python3
"""Random scenarios for drawn/, and what two searches of each find: draw.py PROGRAM FIRST COUNT. Each scenario is drawn from its number, so that a number is all one has to keep. The
default search has to find the ends that --whole finds, and no other, at each bound up to the last at which --whole has few schedules (DRAWN_MOST), by those of the bound before it. One with more at no
preemption is left out, and counted, as is one that ends as a limit. `draw.py --show NUMBER` prints a scenario. Pairs of its steps are run in both orders,
too. It ends with 1 if an end is lost or made up, or a pair is taken wrongly, and says which."""
import os
import random
import re
import resource
import subprocess
import sys
import tempfile

SECONDS = 10  # of a processor
MOST = int(os.environ.get("DRAWN_MOST", "800"))
PAIRS = "40"
CACHED = float(os.environ.get("DRAWN_CACHED", "0.2"))  # of them are above a volume that caches, with one client more, which has pages written
GROWS = 24  # so many times more schedules has one preemption, before it is known
# Acts that go together: a program is drawn from some of these groups. Each sign is an act of its own (drawn/).
GROUPS = {
    "memory": "abcd", "plain": "ae", "pools": "fgh", "lists": "0123", "events": "ijkmno9", "awhile": "ijopq", "semaphores": "rst", "mutex": "uv", "time": "wTo", "fast": "AC", "push": "DE", "resource": "GHIJLMl", "clock": "zw", "timers": "56To", "own": "8!", "defers": "7",
    "spin": "N", "rundown": "OPQ", "work": "R", "dpcs": "STUV", "contexts": "XYZ", "threads": "W", "messages": "x", "pends": "y",
}
# What lets go of what an act took.
LETS_GO = {"A": "B", "D": "F", "E": "F", "G": "K", "H": "K", "I": "K", "J": "K"}
OF_PROGRAM = "cmgdrewsxl"
PROGRAM_LETS_GO = {"l": "L", "x": "X"}


def acts(draw, letters, most, lets_go):
    """A program: what it takes it lets go of, in either order; nothing is taken twice."""
    text, held = "", []
    for _ in range(draw.randint(1, most)):
        letter, digit = draw.choice(letters), draw.randint(0, 3)
        if letter in lets_go:
            own = (lets_go[letter], digit & 1)
            if own in held:
                continue
            held.append(own)
        text += f"{letter}{digit}"
        if held and draw.random() < 0.4:
            letter, digit = held.pop(draw.randrange(len(held)))
            text += f"{letter}{digit}"
    while held:
        letter, digit = held.pop()
        text += f"{letter}{digit}"
    return text


def letters_of(draw):
    """The letters of a scenario: of one to three groups, with memory beside them more often than not."""
    groups = draw.sample(sorted(GROUPS), draw.randint(1, 3)) + (["memory"] if draw.random() < 0.6 else [])
    return "".join(GROUPS[group] for group in groups)


def scenario(number):
    """The scenario of that number, and words of its search."""
    draw = random.Random(number)
    letters, clients = letters_of(draw), draw.choice([2, 2, 2, 3, 3])
    most = {2: draw.choice([2, 3, 4, 5]), 3: draw.choice([1, 2, 3])}[clients]
    programs = [acts(draw, letters, most, LETS_GO) for _ in range(clients)]
    programs = [text if at == 0 else re.sub("W.", "a1", text) for at, text in enumerate(programs)]
    programs[0] = re.sub("(W.)(.*)", lambda found: found[1] + re.sub("W.", "a2", found[2]), programs[0])
    if clients > 1 and draw.random() < 0.15:
        programs[1] = programs[0]
    lines = ["volume 0 uncached", "load drawn", "attach 0 0 one 200", "create 0 new f"]
    kept = dict(enumerate(programs))
    kept[6] = acts(draw, letters.replace("W", "a"), 2, LETS_GO)
    kept[7] = acts(draw, letters.replace("W", "a").replace("x", "b"), 2, LETS_GO)
    lines += [f"write 0 {at} {text.encode().hex()}" for at, text in sorted(kept.items())]
    lines += [f"client {'abc'[at]}: read 0 {at} 4" for at in range(clients)]
    if draw.random() < (0.8 if "x" in letters else 0.1):
        lines.append("client p: start program " + "/".join("c0" * (not at) + acts(draw, OF_PROGRAM, 2, PROGRAM_LETS_GO) for at in range(draw.choice([1, 1, 2]))))
    if draw.random() < (0.8 if "y" in letters or "7" in letters or "p" in letters or "R" in letters else 0.2):
        lines.append("client d: " + draw.choice(["detach 0", "unload 0", "flush 0", "flush 0"]))
    elif draw.random() < 0.1:
        lines.append("client e: " + draw.choice(["create 0 new g; read $ 6 4; close $", "create 0 always g; close $; flush 0"]))
    lines.append("finally: flush 0; flush 0; detach 0; unload 0")
    words = draw.choice([[], [], [], ["--coarse"], ["--workers", "2"], ["--inline"], ["--fails", "1"], ["--late", "1"]])
    if draw.random() < CACHED:
        lines[0] = "volume 0 cached"
        lines.insert(-1, draw.choice(["client l: lazy", "client v: write 0 64 6f; flush 0", "client l: lazy; flush 0"]))
    return "\n".join(lines) + "\n", words


def run(program, words, path):
    """What a search prints and its status, which is below zero where it takes too long."""
    return subprocess.run([program, *words, path], capture_output=True, check=False, preexec_fn=lambda: resource.setrlimit(resource.RLIMIT_CPU, (SECONDS, SECONDS)))


def ends(program, words, path, room):
    """What a search finds, as a set, and how many schedules each bound had; None if it didn't come to its end, or ended as a limit."""
    learned = f"{room}/learned"
    if os.path.exists(learned):
        os.remove(learned)
    done = run(program, ["--learn", learned, *words], path)
    if done.returncode < 0 or done.returncode == 4 or not os.path.exists(learned) or b"the search ends here" in done.stdout:
        return None, []
    with open(learned, encoding="utf-8", errors="replace") as file:
        found = {re.sub(r"operation \d+", "operation N", one.strip()) for one in file.read().split("\n\n") if one.strip()}
    return found, [int(count) for count in re.findall(rb"^bound \d+: (\d+) schedules", done.stdout, re.M)]


def next_count(counts):
    """About how many schedules the next bound has: each grows less than the one before it."""
    return counts[-1] * (GROWS if len(counts) == 1 else counts[-1] / counts[-2])


def pairs(program, words, path):
    """Pairs of steps that are taken to come to the same in either order, and don't, as lines."""
    done = run(program, ["--commute", PAIRS, *words], path)
    return done.stdout.decode(errors="replace").split("\n")[:2] if done.returncode == 1 else []


def compare(program, number, room):
    """How many comparisons, ends, and searches that were left out; and what differs, in sentences."""
    text, words = scenario(number)
    path, compared, seen = f"{room}/drawn.txt", 0, 0
    with open(path, "w", encoding="utf-8") as file:
        file.write(text)
    said = [f"number {number}: {line}" for line in pairs(program, words, path)]
    whole, counts = ends(program, [*words, "--whole", "--bound", "0"], path, room)
    while counts and not said and next_count(counts) <= MOST and (len(counts) < 2 or counts[-1] > counts[-2]):
        bound = str(len(counts))
        found, _ = ends(program, [*words, "--bound", bound], path, room)
        whole, counts = ends(program, [*words, "--whole", "--bound", bound], path, room)
        if whole is None or found is None:
            break
        compared, seen = compared + 1, len(whole)
        for what, ones in (("lost", whole - found), ("made up", found - whole)):
            said += [f"number {number}, bound {bound}: {what}: {' / '.join(one.split(chr(10)))[:300]}" for one in sorted(ones)[:2]]
    return compared, seen, said


def main():
    """Compares those that are asked for."""
    if sys.argv[1] == "--show":
        text, words = scenario(int(sys.argv[2]))
        print(f"# {' '.join(words)}\n{text}", end="")
        return 0
    program, first, count = sys.argv[1], int(sys.argv[2]), int(sys.argv[3])
    compared = found = left_out = wrong = 0
    with tempfile.TemporaryDirectory() as room:
        for number in range(first, first + count):
            more, seen, said = compare(program, number, room)
            compared, found, left_out, wrong = compared + more, found + seen, left_out + (not more), wrong + bool(said)
            print("".join(sentence + "\n" for sentence in said), end="", flush=True)
    print(f"{count} scenarios from {first} on: {compared} comparisons, {found} ends, {wrong} wrong, {left_out} left out")
    return 1 if wrong else 0


sys.exit(main())
