#!/usr/bin/env python3
"""Whether `.ci/run --list` names the parts that read a file, and no others, after an edit in each of ten places. It works on a copy, where all has passed."""
import os
import pathlib
import subprocess
import sys
import tempfile

TOP = pathlib.Path(__file__).resolve().parent.parent
# What reads each file.
ALWAYS = "merges rules links shell listed pages"
DRIVERS = "host legal misuse explore sound spread threads names order programs image picture"
HOST = f"{DRIVERS} coverage layers script cache headers conformance paging serve"
KIT = "host cache image objects stored trial"
CRATES = "demanded promises format proofs archive"
# Ten places, and the parts that read each beside those.
PLACES = {
    "README.md": "words",
    "docs/JSON.md": "words schema host objects",
    "c/host/filesystem/create.c": HOST,
    "c/tests/legal/later.c": "legal sound explore",
    "c/tests/drivers/raises_pool.c": DRIVERS,
    "tests/model/words.py": "demanded tests order model wrong",
    "clients/kazdrin.py": "mount serve",
    ".ci/tap/check": "tap",
    "crates/examples/data/rows/held_cleanup_and_close.flt": f"{CRATES} {KIT} script model",
    "tools/picture": f"{KIT} picture",
}
# Fills the memory of a copy: each part passed on its tree.
FILL = """
import sys
sys.path.insert(0, ".ci")
import gate
table, files = gate.Table(), gate.tree()
for part in table.parts:
    for is_proved in (False, True):
        gate.keep(gate.key(table, part, files, is_proved), "in the copy")
    for path in part.leaves:
        (gate.TOP / path).parent.mkdir(parents=True, exist_ok=True)
        (gate.TOP / path).touch()
"""


def copied(room):
    """A copy of the checkout as it stands here, with git's list of its files."""
    names = subprocess.run(["git", "-C", TOP, "ls-files", "-co", "--exclude-standard", "-z"], capture_output=True, check=True).stdout
    archive = subprocess.run(["tar", "-C", TOP, "--null", "-T", "-", "--ignore-failed-read", "-cf", "-"], input=names, capture_output=True, check=False).stdout
    subprocess.run(["tar", "-C", room, "-xf", "-"], input=archive, check=True)
    for words in (["init", "-q"], ["add", "-A"]):
        subprocess.run(["git", "-C", room, *words], capture_output=True, check=True)


def listed(room, seen):
    """The parts that would run there."""
    lines = subprocess.run([".ci/run", "--list"], cwd=room, env=seen, capture_output=True, text=True, check=True).stdout.splitlines()
    return {line.split(":", 1)[0] for line in lines[:-1]}


def main():
    """Edits one place after the other."""
    failed = 0
    with tempfile.TemporaryDirectory() as folder:
        room, cache = pathlib.Path(folder, "tree"), pathlib.Path(folder, "cache")
        room.mkdir()
        copied(room)
        seen = {**os.environ, "XDG_CACHE_HOME": str(cache)}
        subprocess.run([sys.executable, "-c", FILL], cwd=room, env=seen, check=True)
        wanted = {"": set(), **{path: {*ALWAYS.split(), *parts.split()} for path, parts in PLACES.items()}}
        for path, parts in wanted.items():
            before = (room / path).read_bytes() if path else b""
            if path:
                (room / path).write_bytes(before + b"\n")
            found = listed(room, seen)
            if path:
                (room / path).write_bytes(before)
            if found != parts:
                failed += 1
                print(f"{path or 'no edit'}: named without reading it: {' '.join(sorted(found - parts)) or '-'}; left out: {' '.join(sorted(parts - found)) or '-'}")
    print(f"{len(wanted) - failed} passed, {failed} failed")
    return 1 if failed else 0


if __name__ == "__main__":
    sys.exit(main())
