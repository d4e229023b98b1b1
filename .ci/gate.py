#!/usr/bin/env python3
"""Runs the parts of the gate by the table .ci/parts, and remembers what passed. .ci/run says its words.

A part's key is the checksum of its row, of the files that the row names, as they stand here, and of the versions of the tools that it needs. What passed is kept by
its key in ~/.cache/kazdrin/passed (XDG_CACHE_HOME), with its date and its seconds of a processor. Each part is run in an environment of its own, with an empty cache.
"""
import fnmatch
import hashlib
import os
import pathlib
import re
import resource
import shutil
import signal
import subprocess
import sys
import tempfile
import time

import crates

TOP = pathlib.Path(__file__).resolve().parent.parent
TABLE = TOP / ".ci/parts"
# How many results are kept: some thirty whole runs.
KEPT = 1500
# A whole run of more seconds than these leaves out the parts that are spare.
ENOUGH = 6000
# What a part sees of the caller's environment; the rest is the same for each.
SEEN = ("PATH", "HOME", "USER", "LOGNAME", "TMPDIR", "CI", "CC", "CXX", "CFLAGS", "PYENV_ROOT", "http_proxy", "https_proxy", "DEBIAN_FRONTEND")


class Part:
    """A row of the table."""

    def __init__(self, line):
        fields = [field.strip().replace("\\|", "|") for field in re.split(r"(?<!\\)\|", line)]
        if len(fields) != 5:
            raise ValueError(f".ci/parts: a row has five fields: {line}")
        self.name, self.command, files, needs, seconds = fields
        self.files, self.seconds = files.split(), int(seconds or 0)
        words = needs.split()
        self.leaves = [word[1:] for word in words if word.startswith(">")]
        self.is_long, self.is_spare = "long" in words, "spare" in words
        self.may_lack = any(word.endswith("?") for word in words)
        self.tools = [word.rstrip("?") for word in words if not word.startswith(">") and word not in ("long", "spare")]


def any_of(patterns):
    """One regular expression for several patterns; those that begin alike stand together, so that most paths fail at their first letters."""
    heads = {}
    for pattern in patterns:
        head = re.match(r"[^*?\[/]*/?", pattern)[0]
        heads.setdefault(head, []).append(fnmatch.translate(pattern[len(head) :]))
    return re.compile("|".join(f"{re.escape(head)}(?:{'|'.join(rest)})" for head, rest in heads.items()) or r"(?!)")


class Table:
    """The parts, and the groups of files that they name."""

    def __init__(self):
        self.parts, self.groups = [], {}
        for line in TABLE.read_text(encoding="utf-8").splitlines():
            group = re.match(r"group (\w+) = (.*)", line)
            if group:
                self.groups[group[1]] = group[2].split()
            elif line.strip() and not line.startswith("#"):
                self.parts.append(Part(line))

    def named(self, name):
        """The part of that name."""
        found = next((part for part in self.parts if part.name == name), None)
        if not found:
            known = " ".join(part.name for part in self.parts)
            raise ValueError(f"there is no part {name}; there are {known}")
        return found

    def patterns(self, words):
        """The patterns that the words of a row stand for."""
        for word in words:
            if word.startswith("+"):
                yield from self.patterns(self.groups.get(word[1:]) or self.named(word[1:]).files)
            elif word.startswith("crate:"):
                yield from ("crates.txt", "HANDLES")
                yield from (f"crates/{crate}/*" for crate in crates.below(word[6:]))
            else:
                yield word

    def matches(self, part):
        """A test whether a path is one of the part's files; a pattern after ! takes away."""
        every = set(self.patterns(part.files))
        if every == {"*"}:
            return lambda path: True
        take = any_of(it for it in every if not it.startswith("!"))
        leave = any_of(it[1:] for it in every if it.startswith("!"))
        return lambda path: take.match(path) and not leave.match(path)


def git(*words):
    """What git prints."""
    return subprocess.run(["git", "-C", TOP, *words], capture_output=True, text=True, check=True).stdout


def tree():
    """Each file of the checkout with the checksum of what it has now, those that aren't committed too."""
    found = {}
    for line in git("ls-files", "-s", "-z").split("\0"):
        if line:
            about, path = line.split("\t", 1)
            found[path] = about
    dirty = git("diff", "--name-only", "-z").split("\0") + git("ls-files", "-o", "--exclude-standard", "-z").split("\0")
    for path in filter(None, dirty):
        file = TOP / path
        if file.is_file():
            found[path] = f"{os.access(file, os.X_OK)} {hashlib.sha1(file.read_bytes()).hexdigest()}"
        else:
            found.pop(path, None)
    return found


def version(tool):
    """What tells a tool from another version of it: its file, that file's size and time; of `fuse` its library, and whether the device may be opened."""
    if tool == "rt":
        return (pathlib.Path(os.path.realpath(shutil.which("rt") or "/")).parent.parent / "KIT-ID").read_text(encoding="utf-8") if shutil.which("rt") else "none"
    if tool == "fuse":
        libraries = sorted(str(it) for it in pathlib.Path("/usr").glob("lib/*/libfuse3.so*"))
        return f"{libraries} {os.access('/dev/fuse', os.R_OK | os.W_OK)}"
    path = sys.executable if tool == "python3" else os.path.realpath(shutil.which(os.environ.get(tool.upper(), tool).split()[0]) or "/none")
    about = os.stat(path) if os.path.exists(path) else None
    return f"{tool} {path} {about.st_size} {about.st_mtime_ns}" if about else f"no {tool}"


def is_product(table, tool):
    """Whether a need is what another part leaves in this checkout."""
    return any(part.name == tool and part.leaves for part in table.parts)


def is_left(part):
    """Whether what the part leaves is here."""
    return all((TOP / path).exists() for path in part.leaves)


def key(table, part, files, is_proved):
    """The checksum of all that the part's result depends on."""
    whole = hashlib.sha256()
    matches = table.matches(part)
    tools = sorted(version(tool) for tool in part.tools if not is_product(table, tool))
    needs_proofs = any(is_product(table, tool) for tool in part.tools)
    environment = [f"{name}={os.environ[name]}" for name in ("CC", "CXX", "CFLAGS") if name in os.environ]
    for line in [part.name, part.command, *tools, *environment, "proved" if is_proved or not needs_proofs else "without proofs"]:
        whole.update(f"{line}\0".encode())
    for path in sorted(filter(matches, files)):
        whole.update(f"{path} {files[path]}\0".encode())
    return whole.hexdigest()[:32]


def memory():
    """The folder of what passed."""
    base = os.environ.get("XDG_CACHE_HOME") or os.path.expanduser("~/.cache")
    return pathlib.Path(base) / "kazdrin/passed"


def passed(name):
    """The line that was kept by that key, or none."""
    try:
        return (memory() / name).read_text(encoding="utf-8").strip()
    except OSError:
        return None


def keep(name, line):
    """Keeps a line by its key; the newest stay."""
    try:
        memory().mkdir(parents=True, exist_ok=True)
        (memory() / name).write_text(line + "\n", encoding="utf-8")
        for old in sorted(memory().iterdir(), key=lambda it: it.stat().st_mtime)[:-KEPT]:
            old.unlink()
    except OSError as error:
        print(f"gate: what passed can't be kept: {error}", file=sys.stderr)


def environment(room, without):
    """What a part sees: few words of the caller's, and a cache of its own."""
    own = {name: os.environ[name] for name in SEEN if name in os.environ}
    return {**own, "XDG_CACHE_HOME": f"{room}/cache", "LANG": "C.UTF-8", "TERM": "dumb", "KAZDRIN_KNOWN": str(memory().parent), "KAZDRIN_WHOLE": "1", "KAZDRIN_WITHOUT": " ".join(without)}


def unproved(*words):
    """The path of what tools/unproved builds, or has kept, of these words; at the level of the archive's tests."""
    ran = subprocess.run([TOP / "tools/unproved", *words], env={**os.environ, "KAZDRIN_LEVEL": "-O1"}, stdout=subprocess.PIPE, text=True, check=False)
    if ran.returncode:
        raise ValueError(f"tools/unproved {' '.join(words)} ended with {ran.returncode}")
    return ran.stdout.strip()


def program(name):
    """A program of crates: the proved one if it is in this checkout, else one without proofs."""
    proved = TOP / f"crates/{name}/out/{name}"
    return str(proved) if proved.exists() else unproved(name)


def stand_ins(part):
    """What a part is told to use in place of what the proofs leave, if that isn't here."""
    words = {}
    if "archive" in part.tools and not (TOP / "crates/kazdrin_c/out/libkazdrin_c.a").exists():
        words["KAZDRIN_LIB"] = unproved("--archive")
    if part.name in ("mount", "serve"):
        words["FLTD"] = program("fltd")
    return words


def seed(cache):
    """Without what the proofs leave a part would build the programs anew: it has those that are kept without proofs."""
    kept = memory().parent / "unproved"
    if kept.is_dir() and not (TOP / "crates/fltview/out/fltview").exists():
        subprocess.run(["cp", "-Rl", kept, cache], check=False, stderr=subprocess.DEVNULL)


def perform(part, without, folder):
    """Runs the part's command in that folder, and answers whether it passed, and its seconds of a processor."""
    before = resource.getrusage(resource.RUSAGE_CHILDREN)
    command = re.sub(r"\{([a-z]\w*)\}", lambda it: program(it[1]), part.command)
    with tempfile.TemporaryDirectory(prefix="kazdrin-part-") as room:
        os.makedirs(f"{room}/cache/kazdrin")
        seed(f"{room}/cache/kazdrin")
        own = {**environment(room, without), **stand_ins(part)}
        child = subprocess.Popen(["bash", "-c", command], cwd=folder, env=own, stdin=subprocess.DEVNULL, start_new_session=True)
        try:
            status = child.wait()
        finally:
            # what a part leaves running would meet the next one
            try:
                os.killpg(child.pid, signal.SIGKILL)
            except ProcessLookupError:
                pass
    after = resource.getrusage(resource.RUSAGE_CHILDREN)
    return status == 0, round(after.ru_utime + after.ru_stime - before.ru_utime - before.ru_stime)


class Run:
    """A run of all parts, or of those that are named: which are run, which were remembered, which failed."""

    def __init__(self, table, names, without, is_anew):
        self.table, self.without, self.is_anew, self.is_whole = table, without, is_anew, not names
        self.parts = [table.named(name) for name in names] or [part for part in table.parts if not part.is_long]
        self.files, self.failed, self.remembered, self.seconds = tree(), [], 0, {}
        self.begun = time.monotonic()

    def key(self, part, is_proved=None):
        """The part's key; a whole run has what `rt ci` leaves, and others have what is here."""
        if is_proved is None:
            is_proved = self.is_whole or all(is_left(self.table.named(tool)) for tool in part.tools if is_product(self.table, tool))
        return key(self.table, part, self.files, is_proved)

    def due(self):
        """The parts to be run: those that aren't known to have passed, and of those that leave something here the ones whose work isn't here and is wanted."""
        fresh = [part for part in self.parts if self.is_anew or not passed(self.key(part))]
        wanted = {tool for part in fresh for tool in part.tools} | {"proofs"}
        return [part for part in self.parts if part in fresh or (part.leaves and part.name in wanted and not is_left(part))]

    def run(self):
        """Runs what is due, in the table's order, and answers the exit status."""
        due = self.due()
        for part in self.parts:
            if part not in due:
                self.remembered += 1
                print(f"{part.name}: passed {passed(self.key(part))}", flush=True)
                continue
            if part.is_spare and self.is_whole and time.monotonic() - self.begun > ENOUGH:
                print(f"{part.name}: left out, since the run has taken more than {ENOUGH // 60} minutes", flush=True)
                continue
            lack = next((tool for tool in part.tools if tool in self.failed and self.table.named(tool).leaves), None)
            if lack:
                print(f"{part.name}: not run, since {lack} failed", flush=True)
                self.failed.append(part.name)
                continue
            self.run_part(part)
        count = len(self.parts) - len(self.failed)
        print(f"parts that passed: {count}, {self.remembered} of them before" + (f"; failed: {' '.join(self.failed)}" if self.failed else ""))
        print(f"{count} passed, {len(self.failed)} failed")
        return 1 if self.failed else 0

    def run_part(self, part):
        """Runs one part, and keeps its result."""
        print(f"== {part.name}: {part.command}", flush=True)
        begun = time.monotonic()
        is_well, seconds = perform(part, self.without, TOP)
        self.seconds[part.name] = seconds
        now = tree()
        written = sorted(path for path in {*now, *self.files} if now.get(path) != self.files.get(path))
        if written:
            is_well = False
            print(f"{part.name}: the checkout changed meanwhile: {' '.join(written[:5])}")
            self.files = now
        if is_well:
            keep(self.key(part), time.strftime("%Y-%m-%d %H:%M") + f", {seconds} s of a processor")
        else:
            self.failed.append(part.name)
        print(f"{part.name}: {'passed' if is_well else 'FAILED'}, {seconds} s of a processor, {time.monotonic() - begun:.0f} s", flush=True)


def listed(run):
    """Prints what would run, and what passed."""
    due = run.due()
    for part in run.parts:
        without = passed(run.key(part, False))
        if part in due:
            print(f"{part.name}: to be run, {part.seconds} s of a processor" + (f"; passed without proofs {without}" if without else ""))
    print(f"{len(due)} of {len(run.parts)} parts, {sum(part.seconds for part in due)} s of a processor")
    return 0


def changed(table, paths):
    """Prints which parts each path touches; without paths those that git says have changed."""
    paths = paths or [line[3:] for line in git("status", "--porcelain").splitlines()]
    names = set()
    for path in paths:
        touched = [part.name for part in table.parts if table.matches(part)(path)]
        names.update(touched)
        crate = re.match(r"crates/(\w+)/", path)
        if crate and crate[1] in crates.stands_on():
            print(f"{path}: cd crates/{crate[1]} && rt check && rt ci {crate[1]}; {len(crates.above(crate[1])) - 1} crates above it are proved again")
        print(f"{path}: " + (f".ci/run {' '.join(touched)}" if touched else "no part reads it"))
    if len(paths) > 1:
        print("all: .ci/run " + " ".join(part.name for part in table.parts if part.name in names))
    return 0


def alone(table, names):
    """Runs each part in a tree that has the files of its row alone: one that reads another file fails. What the gate's proofs left is there."""
    failed = []
    for part in map(table.named, names):
        with tempfile.TemporaryDirectory(prefix="kazdrin-alone-") as folder:
            matches = table.matches(part)
            for path in filter(matches, tree()):
                there = pathlib.Path(folder) / path
                there.parent.mkdir(parents=True, exist_ok=True)
                shutil.copy2(TOP / path, there, follow_symlinks=False)
            for out in TOP.glob("crates/*/out"):
                there = pathlib.Path(folder) / out.relative_to(TOP)
                if there.parent.is_dir():
                    there.symlink_to(out)
            for words in (["init", "-q"], ["add", "-A"], ["-c", "user.name=gate", "-c", "user.email=gate@localhost", "commit", "-q", "-m", "alone"]):
                subprocess.run(["git", *words], cwd=folder, check=True)
            print(f"== {part.name} alone", flush=True)
            is_well, _ = perform(part, [], folder)
            print(f"{part.name} alone: {'passed' if is_well else 'FAILED'}", flush=True)
            failed += [] if is_well else [part.name]
    print(f"{len(names) - len(failed)} passed, {len(failed)} failed")
    return 1 if failed else 0


def measured(seconds):
    """Writes the measured seconds into the table."""
    lines = TABLE.read_text(encoding="utf-8").split("\n")
    for at, line in enumerate(lines):
        name = line.split("|")[0].strip()
        if name in seconds and not line.startswith("#"):
            lines[at] = line.rsplit("|", 1)[0] + f"| {seconds[name]}"
    TABLE.write_text("\n".join(lines), encoding="utf-8")


def usage(status):
    """Prints the head of .ci/run."""
    head = re.match(r"#!.*\n((?:#.*\n)*)", (TOP / ".ci/run").read_text(encoding="utf-8"))[1]
    print(re.sub(r"^# ?", "", head, flags=re.M).rstrip(), file=sys.stderr if status else sys.stdout)
    return status


def main(words):
    """The program: its exit status."""
    table = Table()
    if words[:1] in (["-h"], ["--help"]):
        return usage(0)
    if words[:1] == ["--changed"]:
        return changed(table, words[1:])
    if words[:1] == ["--alone"]:
        return alone(table, words[1:] or [part.name for part in table.parts if not part.is_long])
    flags = [word for word in words if word in ("--anew", "--list", "--measure", "--whole")]
    names = [word for word in words if word not in flags]
    without = [part.name for part in table.parts if part.may_lack] if "--whole" not in flags else []
    if names[:1] == ["--without"]:
        if names[1:] == []:
            return usage(2)
        without, names = names[1:], []
    if any(name.startswith("-") for name in names):
        return usage(2)
    run = Run(table, names, without, "--anew" in flags)
    if "--list" in flags:
        return listed(run)
    status = run.run()
    if "--measure" in flags:
        measured(run.seconds)
    return status


if __name__ == "__main__":
    signal.signal(signal.SIGPIPE, signal.SIG_DFL)
    # what a part began ends with this run
    signal.signal(signal.SIGTERM, lambda *_: sys.exit(143))
    try:
        sys.exit(main(sys.argv[1:]))
    except ValueError as error:
        print(f"gate: {error}", file=sys.stderr)
        sys.exit(2)
