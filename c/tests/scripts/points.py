#!/usr/bin/env python3
"""c/tests/points.txt beside the headers and the host: points.py. Each routine that c/include declares and the host has, or that a routine table has (kz*routines.h), stands once in that file: under
`seen` where it changes or reads what another client can tell, under `own` where nobody else can. Each under `seen` that is modelled is a point, at which another client may go on first (KZ_CALL), and
none under `own` is. Each of those that comes inside the host says what it touches, and is called by a driver whose steps sound.sh runs in both orders. The lists of IRQLs are looked at too. It ends with
1 where something differs, and says each difference in a sentence. `points.py --print` prints what the host has."""
import glob
import re
import subprocess
import sys

HOST = sorted(glob.glob("c/host/*/*.c"))
ROUTINE = re.compile(r"^(?:[A-Za-z_][\w \*]*?[ \*])(\w+)\(([^;{}]*)\)\n\{\n(.*?)^\}", re.M | re.S)
DEPTH = 3


def read(path):
    """The text of a file."""
    with open(path, encoding="utf-8") as file:
        return file.read()


def tabled():
    """The routines that are declared and aren't modelled."""
    texts = [read(path) for path in glob.glob("c/include/kz*routines.h")]
    return {name for text in texts for name in re.findall(r"^KZ_ROUTINE\([^,]*, [^,]*, [^,]*, (\w+)", text, re.M)}


def declared():
    """The names in front of a parenthesis in what the headers declare."""
    found = set()
    for path in glob.glob("c/include/*.h"):
        found |= set(re.findall(r"\b([A-Z]\w+)\(", re.sub(r"^[ \t]*#(?:\\\n|.)*$", "", read(path), flags=re.M)))
    return found


def modelled():
    """What the host defines, by its objects."""
    folder = subprocess.run(["c/libraries.sh", "host"], check=True, capture_output=True, text=True).stdout.strip()
    said = subprocess.run(["nm", "--defined-only", *glob.glob(f"{folder}/host/*/*.o")], check=True, capture_output=True, text=True).stdout
    return set(re.findall(r" T ([A-Z]\w+)$", said, re.M))


def bodies():
    """Each function of the host with its body."""
    return {name: body for path in HOST for name, _, body in ROUTINE.findall(read(path))}


def is_point(name, all_bodies, depth=DEPTH):
    """Whether another client may go on first where it is called: it says so, or goes straight on to one that does."""
    body = all_bodies.get(name, "")
    if re.search(r"\bKZ_CALL(_OF|_FROM|_ALONE)?\(", body):
        return True
    if "KZ_INSIDE" in body or not depth:
        return False
    return any(is_point(called, all_bodies, depth - 1) for called in re.findall(r"\b(\w+)\(", body) if called != name and called in all_bodies)


SAYS = r"\bKZ_INSIDE_(?:ALONE|AS_DRIVER)\(|\bkz_uses_\w+\("
ENDS = ("KzAssertFailed", "KzBreak", "KzBrokenList", "KzBugCheck")  # no step is behind it


def is_silent(name, helpers, depth=DEPTH):
    """Whether it comes inside the host, by itself or by what its file has for it, and doesn't say what it touches: then that is taken to be everything."""
    body = helpers.get(name, "")
    if re.search(SAYS, body):
        return False
    if re.search(r"\bKZ_(INSIDE|CALL)(?!_DRIVER|ER)", body):
        return True
    return depth > 0 and any(is_silent(helper, helpers, depth - 1) for helper in re.findall(r"\b([a-z]\w+)\(", body) if helper != name and helper in helpers)


def silent():
    """Those of all files."""
    found = set()
    for path in HOST:
        helpers = {name: body for name, _, body in ROUTINE.findall(read(path))}
        found |= {name for name in helpers if is_silent(name, helpers)}
    return found


def called():
    """What the drivers call whose steps are run in both orders."""
    paths = [path for folder in ("samples", "tests/legal", "tests/misuse/schedules", "tests/sound", "tests/sound/drawn") for path in glob.glob(f"c/{folder}/*.[ch]")]
    return set(re.findall(r"\b(\w+)\(", "".join(map(read, paths + glob.glob("c/include/*.h")))))


def classes():
    """The classes of the file, each a list of names."""
    found, name = {"seen": [], "own": []}, None
    for line in read("c/tests/points.txt").split("\n"):
        words = line.partition("#")[0].split()
        if words and words[0].endswith(":"):
            name = words.pop(0)[:-1]
        for word in words:
            found[name].append(word)
    return found


def levels():
    """What is wrong with the names of c/host/core/irql.c, which are looked up by halves: they stand in their order, each in one list."""
    lists = re.findall(r"\[\] = \{\n(.*?)\};", read("c/host/core/irql.c"), re.S)
    names = [re.findall(r'"(\w+)"', one) for one in lists]
    said = [f"{after} stands after {before}" for one in names for before, after in zip(one, one[1:]) if before >= after]
    said += [f"{name} stands in two lists" for one in names for name in one if sum(name in other for other in names) > 1]
    return [f"c/host/core/irql.c: {sentence}\n" for sentence in said]


def main():
    """Compares."""
    table, all_bodies = tabled(), bodies()
    unmodelled = set(re.findall(r"\b([A-Z]\w+)\(", read("c/host/kit/unmodelled.c"))) | table
    wanted = (modelled() & declared()) | table
    points = {name for name in wanted - unmodelled if is_point(name, all_bodies)}
    if sys.argv[1:] == ["--print"]:
        print("\n".join(f"{name} {'unmodelled' if name in unmodelled else 'point' if name in points else 'none'}" for name in sorted(wanted)))
        return 0
    found, called_now, silent_now = classes(), called(), silent()
    said = [f"{name} stands in no class" for name in sorted(wanted - set(found["seen"]) - set(found["own"]))]
    said += [f"{name} is no routine of the headers" for name in sorted((set(found["seen"]) | set(found["own"])) - wanted)]
    said += [f"{name} stands there twice" for name in sorted(wanted) if found["seen"].count(name) + found["own"].count(name) > 1]
    said += [f"{name} is seen by others, and no point" for name in sorted(set(found["seen"]) & wanted - unmodelled - points)]
    said += [f"{name} is seen by nobody else, and a point" for name in sorted(set(found["own"]) & points)]
    own = [name for name in found["own"] if name in wanted - unmodelled and name not in ENDS]
    said += [f"{name} touches nothing that others have, and doesn't say so in the host" for name in own if name in silent_now]
    said += [f"{name} says what it touches, and no driver of sound.sh calls it" for name in own if re.search(SAYS, all_bodies.get(name, "")) and name not in called_now]
    said = [f"c/tests/points.txt: {sentence}\n" for sentence in said] + levels()
    print("".join(said), end="")
    return 1 if said else 0


sys.exit(main())
