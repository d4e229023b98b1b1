#!/usr/bin/env python3
"""Tries the wrong bodies of crates: the prover must refuse each of crates/NAME/thorough and wrong, and a test must fail with each of crates/NAME/wrong, without a proof.

    .ci/wrong.py prover [CRATE ..]      the prover, over the wrong bodies of all crates or of these
    .ci/wrong.py tests [CRATE ..]       the tests
    .ci/wrong.py prover|tests --drawn N so many, drawn by the sources: first those of which nothing is known for these sources
    .ci/wrong.py list                   how many are known to be refused for these sources, which were never tried, and whether those of .ci/demanded are there
    .ci/wrong.py demanded               the last alone

It works on a copy. What was refused is kept in ~/.cache/kazdrin/wrong (XDG_CACHE_HOME, KAZDRIN_KNOWN), by a checksum of the wrong body, its crate and those below. A refusal that only says that a name is gone counts for
nothing. It ends with 1 if a wrong body wasn't refused."""

import hashlib
import os
import pathlib
import re
import signal
import subprocess
import sys
import tempfile
import time

from crates import above, below

if sys.argv[1:2] in (["-h"], ["--help"]):
    print(__doc__.strip())
    sys.exit(0)

TOP = pathlib.Path(__file__).resolve().parent.parent

# Which crates are asked first, of those whose tests stand above the crate: what is nearest shows most.
FIRST = {
    "fm_base": ["test_leaves", "test_local"],
    "fm_callback_data": ["test_local", "test_core"],
    "fm_local_exec": ["test_server"],
    "fm_local": ["test_local"],
    "fm_samples": ["test_local", "test_worker"],
    "fm_script": ["test_script", "examples"],
    "fm_trial": ["test_trial"],
    "fm_cli": ["test_server", "test_front"],
    "fm_worker": ["test_worker", "test_front"],
    "fm_world": ["test_core", "test_local"],
}


def is_tested(crate):
    return is_unproved(crate) or any("#[test]" in path.read_text() for path in (TOP / "crates" / crate / "src").rglob("*.rt"))


def is_unproved(crate):
    """Whether its tests stand in tests/."""
    return (TOP / "tests" / crate / "lib.rs").is_file()


def order(crate):
    """The crates to ask, one after the other."""
    first = [name for name in FIRST.get(crate, [])]
    rest = sorted(name for name in above(crate) if is_tested(name) and name not in first)
    return first + rest


def apply(edit, folder):
    """Makes the edit in the copied crate."""
    path, old = None, None
    for line in edit.read_text().splitlines():
        if line.startswith("file: "):
            path = folder / line[6:]
        elif line.startswith("old: "):
            old = line[5:]
        elif line.startswith("new: ") and path and old is not None:
            text = path.read_text()
            if text.count(old) != 1:
                raise ValueError(f"{edit}: {old!r} stands {text.count(old)} times")
            path.write_text(text.replace(old, line[5:]))


def read_or(path, other):
    """What a file has, or another text where there is none."""
    return path.read_text() if path.exists() else other


def runs_well(copy, crate):
    """Whether the crate's tests, or its program, come out as they should, and what is said if they can't be built."""
    if is_tested(crate):
        ran = subprocess.run(["rt", "try", "--test"], cwd=copy / "crates" / crate, capture_output=True, text=True)
        said = ran.stdout + ran.stderr
        if "run=none" in said:
            raise ValueError(said)
        return ran.returncode == 0
    folder = TOP / "crates" / crate
    words = read_or(folder / "args", "").split()
    data = [word for path in sorted(folder.glob("data/*")) for word in ("--data", f"{path.name}={path}")]
    ran = subprocess.run(["rt", "try", *data, "--", *words], cwd=copy / "crates" / crate, capture_output=True, text=True)
    return ran.returncode == int(read_or(folder / "status", "0")) and ran.stdout == read_or(folder / "stdout", "")


def shown_by(edit, crate):
    """The first crate whose tests fail with that wrong body."""
    with tempfile.TemporaryDirectory() as folder:
        copy = pathlib.Path(folder) / "copy"
        unproved = sorted(path.parent.name for path in (TOP / "tests").glob("*/lib.rs"))
        subprocess.run([TOP / ".ci" / "unproved-tests", "--into", copy, *unproved], check=True)
        apply(edit, copy / "crates" / crate)
        for name in order(crate):
            if not runs_well(copy, name):
                return name
    return None


def by_tests(edit):
    """Whether a test fails with that wrong body, and what is said of it."""
    name = shown_by(edit, edit.parent.parent.name)
    return name is not None, f"shown by {name}" if name else "NOT SHOWN"


def by_prover(edits):
    """Of wrong bodies of one crate whether the prover refuses each, and what is said of it."""
    crate = edits[0].parent.parent.name
    with tempfile.TemporaryDirectory() as folder:
        copy = pathlib.Path(folder)
        (copy / "crates").mkdir()
        # what was proved here is linked, and the copy's own files are written anew
        subprocess.run(["cp", "-l", TOP / "HANDLES", copy], check=True)
        lines = (TOP / "crates.txt").read_text(encoding="utf-8").splitlines(True)
        (copy / "crates.txt").write_text("".join(line for line in lines if line.partition(":")[0].split()[:1] and line.partition(":")[0].split()[0] in below(crate)), encoding="utf-8")
        for name in sorted(below(crate)):
            subprocess.run(["cp", "-Rl", TOP / "crates" / name, copy / "crates"], check=True)
        there = copy / "crates" / crate / "must-fail"
        subprocess.run(["rm", "-rf", there], check=True)
        there.mkdir()
        for edit in edits:
            (there / edit.name).write_text(edit.read_text())
        ran = subprocess.run(["rt", "must-fail", crate], cwd=copy, capture_output=True, text=True, check=False)
        return {edit: verdict(edit.stem, ran.stdout + ran.stderr) for edit in edits}


def verdict(name, said):
    """What `rt must-fail` says of an edit, and whether that is a refusal of what it means."""
    lines = [line for line in said.splitlines() if re.search(rf"\b{re.escape(name)}\b", line)]
    text = " ".join(lines).strip() or said.strip()[-300:]
    is_refused = any(re.search(r"\brefused\b", line, re.I) and not re.search(r"NOT REFUSED|says little", line) for line in lines)
    return is_refused, text


def memory():
    """The folder of what was refused."""
    base = os.environ.get("XDG_CACHE_HOME") or os.path.expanduser("~/.cache")
    return pathlib.Path(os.environ.get("KAZDRIN_KNOWN") or pathlib.Path(base) / "kazdrin") / "wrong"


SUMS = {}


def sum_of(crate):
    """The checksum of a crate's sources, definitions and proofs."""
    if crate not in SUMS:
        whole = hashlib.sha256()
        for path in sorted(path for part in ("src", "specs", "proofs") for path in (TOP / "crates" / crate / part).rglob("*") if path.is_file()):
            whole.update(f"{path.relative_to(TOP)}\0".encode() + path.read_bytes())
        SUMS[crate] = whole.hexdigest()
    return SUMS[crate]


def known_at(edit, way):
    """The file that is there if that wrong body is known to be refused for these sources."""
    whole = hashlib.sha256(f"{way} {edit.read_text()}".encode())
    for crate in sorted(below(edit.parent.parent.name)):
        whole.update(sum_of(crate).encode())
    return memory() / whole.hexdigest()[:32]


def edits_of(way, words=()):
    """The wrong bodies that are tried in that way, of these crates or of all."""
    folders = ("wrong", "thorough") if way == "prover" else ("wrong",)
    edits = sorted(edit for folder in folders for edit in (TOP / "crates").glob(f"*/{folder}/*.edit"))
    return [edit for edit in edits if not words or edit.parent.parent.name in words]


def drawn(way, count):
    """So many of them: of unknown ones first, as the sources of all crates say; for the prover those of one crate stand together, since it is proved once for them."""
    tree = hashlib.sha256("".join(sum_of(path.name) for path in sorted((TOP / "crates").iterdir()) if path.is_dir()).encode()).hexdigest()

    def order(edit):
        crate = edit.parent.parent.name
        own = hashlib.sha256(f"{tree} {edit}".encode()).hexdigest()
        return known_at(edit, way).exists(), hashlib.sha256(f"{tree} {crate}".encode()).hexdigest() if way == "prover" else own, own

    return sorted(edits_of(way), key=order)[:count]


def tried(way, edits):
    """Each with whether it was refused, and what is said of it."""
    if way == "prover":
        for crate in dict.fromkeys(edit.parent.parent.name for edit in edits):
            yield from by_prover([edit for edit in edits if edit.parent.parent.name == crate]).items()
        return
    for edit in edits:
        try:
            yield edit, by_tests(edit)
        except ValueError as error:
            yield edit, (False, f"BAD EDIT: {error}")


def is_there(place):
    """Whether a place of .ci/demanded is there: an edit, a test by its name, a program with a stored output."""
    kind, _, name = place.partition(" ")
    if kind == "test":
        return any(f"fn {name}(" in path.read_text() for folder in ("tests", "crates") for path in (TOP / folder).rglob("*.r[st]") if "/out/" not in str(path))
    return (TOP / "crates" / (f"{name}/stdout" if kind == "program" else f"{place}.edit")).is_file()


def demanded():
    """How many of .ci/demanded aren't there, which are printed."""
    rows = [line.split(" | ") for line in (TOP / ".ci/demanded").read_text().splitlines() if not line.startswith("#")]
    missing = [f"{what}: there is no {place}" for what, place in rows if not is_there(place)]
    print("\n".join([*missing, f"{len(rows)} wrong bodies are demanded, and {len(missing)} of them aren't there"]))
    return len(missing)


def listed():
    """Prints what is known."""
    for way in ("prover", "tests"):
        edits = edits_of(way)
        unknown = [edit for edit in edits if not known_at(edit, way).exists()]
        print(f"{way}: {len(edits) - len(unknown)} of {len(edits)} wrong bodies are known to be refused for these sources")
        for edit in unknown:
            print(f"    {edit.parent.parent.name}/{edit.stem}: not tried")
    return 1 if demanded() else 0


def main(words):
    """The program: its exit status."""
    if words == ["list"]:
        return listed()
    if words == ["demanded"]:
        return 1 if demanded() else 0
    if words[:1] not in (["prover"], ["tests"]):
        print(__doc__.strip(), file=sys.stderr)
        return 2
    way = words[0]
    edits = drawn(way, int(words[2])) if words[1:2] == ["--drawn"] else edits_of(way, words[1:])
    missed = 0
    for edit, (is_refused, text) in tried(way, edits):
        print(f"{edit.parent.parent.name}/{edit.stem}: {text}", flush=True)
        missed += not is_refused
        if is_refused:
            known = known_at(edit, way)
            known.parent.mkdir(parents=True, exist_ok=True)
            known.write_text(time.strftime("%Y-%m-%d") + "\n")
    print(f"{len(edits) - missed} passed, {missed} failed")
    return 1 if missed else 0


if __name__ == "__main__":
    signal.signal(signal.SIGPIPE, signal.SIG_DFL)
    sys.exit(main(sys.argv[1:]))
