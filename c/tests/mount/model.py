"""Random operations, each beside a plain model of files."""
import errno
import os
import random
import threading
import time

from ground import Ground, whole

NAMES = 12
MOST_OPEN = 24
FLAGS = (
    os.O_RDWR,
    os.O_RDWR | os.O_CREAT,
    os.O_RDWR | os.O_CREAT | os.O_EXCL,
    os.O_RDWR | os.O_CREAT | os.O_TRUNC,
    os.O_RDWR | os.O_TRUNC,
    os.O_RDWR | os.O_CREAT | os.O_APPEND,
)


class Differs(Exception):
    """The mount and the model differ."""


class Content:
    """A file of the model: with a name, or deleted and open."""

    def __init__(self):
        self.data = bytearray()
        self.opens = 0

    def resize(self, size, hole):
        """Cuts it, or fills it up as the filters show bytes that were never written."""
        del self.data[size:]
        self.data.extend(hole * (size - len(self.data)))


class Model:
    """Operations on names with one beginning, so that several go side by side."""

    def __init__(self, folder, seed, prefix, hole, renames):
        self.folder = folder
        self.random = random.Random(f"{seed}/{prefix}")
        self.prefix = prefix
        self.hole = hole
        self.files = {}  # by name
        self.deleted = []  # names and contents
        self.open = []  # descriptors, contents, flags
        self.steps = (
            (14, self.open_one), (10, self.close_one), (26, self.write), (22, self.read), (5, self.resize_open), (3, self.stat_open),
            (2, self.sync), (5, self.stat), (4, self.unlink), (2, self.list), (2, self.resize), (3, self.read_whole), (2, self.refused),
            (4, self.rename if renames == "all" else self.rename_refused if renames == "copied" else self.stat),
        )

    def want(self, what, got, wanted):
        """The two must agree."""
        if got == wanted:
            return
        if isinstance(got, bytes):
            at = next((at for at, pair in enumerate(zip(got, wanted)) if pair[0] != pair[1]), min(len(got), len(wanted)))
            raise Differs(f"{what}: from byte {at}: {got[at:at + 9]!r} of {len(got)}, and not {wanted[at:at + 9]!r} of {len(wanted)}")
        raise Differs(f"{what}: {got!r:.120}, and not {wanted!r:.120}")

    def failing(self, what, wanted, function, *words):
        """The call's outcome must be that errno, or 0: what it gave."""
        try:
            result, code = function(*words), 0
        except OSError as error:
            result, code = None, error.errno
        self.want(what, errno.errorcode.get(code, code), errno.errorcode.get(wanted, wanted))
        return result

    def some(self):
        """A name, its path and its file."""
        name = self.prefix + str(self.random.randrange(NAMES))
        return name, os.path.join(self.folder, name), self.files.get(name)

    def missing(self, content):
        """The errno of a name that may not be there."""
        return 0 if content else errno.ENOENT

    def open_one(self):
        name, path, content = self.some()
        flags = self.random.choice(FLAGS)
        if len(self.open) > MOST_OPEN or any(each.opens and other == name for other, each in self.deleted):
            return
        wanted = 0
        if content is None and not flags & os.O_CREAT:
            wanted = errno.ENOENT
        elif content is not None and flags & os.O_EXCL:
            wanted = errno.EEXIST
        file = self.failing(f"open {name} {flags:o}", wanted, os.open, path, flags, 0o644)
        if file is None:
            return
        content = self.files.setdefault(name, content or Content())
        if flags & os.O_TRUNC:
            content.data.clear()
        content.opens += 1
        self.open.append((file, content, flags))

    def close_one(self):
        if self.open:
            file, content, _ = self.open.pop(self.random.randrange(len(self.open)))
            os.close(file)
            content.opens -= 1

    def write(self):
        if not self.open:
            return
        file, content, flags = self.random.choice(self.open)
        data = self.random.randbytes(self.random.randrange(self.random.choice((1, 2, 11, 4_097, 32_769, 100_001))))
        offset = self.random.randrange(self.random.choice((1, 100, 40_000, 150_000)))
        if flags & os.O_APPEND:
            offset = len(content.data)
        self.want("written", os.pwrite(file, data, offset), len(data))
        if data:
            if offset > len(content.data):
                content.resize(offset, self.hole)
            content.data[offset : offset + len(data)] = data

    def read(self):
        if not self.open:
            return
        file, content, _ = self.random.choice(self.open)
        length = self.random.randrange(self.random.choice((1, 10, 5_000, 40_000, 120_000)))
        offset = self.random.randrange(self.random.choice((1, 100, 40_000, 200_000)))
        self.want(f"read at {offset}", os.pread(file, length, offset), bytes(content.data[offset : offset + length]))

    def resize_open(self):
        if self.open:
            file, content, _ = self.random.choice(self.open)
            size = self.random.randrange(self.random.choice((1, 5_000, 150_000)))
            os.ftruncate(file, size)
            content.resize(size, self.hole)

    def stat_open(self):
        if self.open:
            file, content, _ = self.random.choice(self.open)
            self.want("size of an open file", os.fstat(file).st_size, len(content.data))

    def sync(self):
        if self.open:
            os.fsync(self.random.choice(self.open)[0])

    def stat(self):
        name, path, content = self.some()
        found = self.failing(f"stat {name}", self.missing(content), os.stat, path)
        if found:
            self.want(f"size of {name}", found.st_size, len(content.data))

    def unlink(self):
        name, path, content = self.some()
        self.failing(f"unlink {name}", self.missing(content), os.unlink, path)
        if content:
            del self.files[name]
            self.deleted.append((name, content))
            self.deleted = [(other, each) for other, each in self.deleted if each.opens]

    def list(self):
        names = sorted(name for name in os.listdir(self.folder) if name.startswith(self.prefix))
        self.want("names", names, sorted(self.files))

    def resize(self):
        name, path, content = self.some()
        size = self.random.randrange(50_000)
        self.failing(f"truncate {name}", self.missing(content), os.truncate, path, size)
        if content:
            content.resize(size, self.hole)

    def read_whole(self):
        name, path, content = self.some()
        data = self.failing(f"read {name}", self.missing(content), whole, path)
        if content:
            self.want(f"bytes of {name}", data, bytes(content.data))

    def refused(self):
        _, path, _ = self.some()
        self.failing("mkdir", errno.EPERM, os.mkdir, path + "d")

    def rename_refused(self):
        _, path, content = self.some()
        self.failing("rename", errno.EXDEV if content else errno.ENOENT, os.rename, path, path + "r")

    def rename(self):
        """Onto any name, be they open or not: what had that name keeps its open files."""
        (name, path, content), (to, to_path, _) = self.some(), self.some()
        if any(each.opens and other == to for other, each in self.deleted):
            return
        self.failing(f"rename {name} {to}", self.missing(content), os.rename, path, to_path)
        if content:
            self.files[to] = self.files.pop(name)

    def run(self, count):
        """So many steps, and a look at all in the end: what differs, or an empty text."""
        done = 0
        try:
            for done in range(count):
                self.random.choices([step for _, step in self.steps], [weight for weight, _ in self.steps])[0]()
            self.end()
        except (Differs, OSError) as error:
            return f"step {done} of {self.prefix}: {error}"
        finally:
            for file, _, _ in self.open:
                os.close(file)
        return ""

    def end(self):
        """All is closed, and compared."""
        while self.open:
            self.close_one()
        time.sleep(0.1)
        self.list()
        for name, content in self.files.items():
            self.want(f"bytes of {name}", whole(os.path.join(self.folder, name)), bytes(content.data))


def beside(ground, count, seed, prefixes, hole, renames):
    """Some models side by side: what differs."""
    results = {}
    threads = []
    for prefix in prefixes:
        def work(prefix=prefix):
            results[prefix] = Model(ground.mount, seed, prefix, hole, renames).run(count)
        threads.append(threading.Thread(target=work))
    for thread in threads:
        thread.start()
    for thread in threads:
        thread.join()
    return "; ".join(result for result in results.values() if result)


def run(tally, tools):
    """Random operations, alone and side by side, and with pages that the kernel keeps. It shows zeros where nothing was written, whatever a filter says: so nothing shifts there."""
    seed = tools.seed or random.randrange(1 << 32)
    filters = {"meter": 200, "carry": 150, "guard": 300}
    for options, prefixes, hole in (((), "m", b"\xff"), (("shared",), "abcd", b"\xff"), (("cached",), "wxyz", b"\0")):
        with Ground(tally, tools, *options, patience=300 + tools.count / 5, alone=True) as ground:
            ground.attach(**(filters if hole == b"\0" else filters | {"shift": 100}))
            found = beside(ground, tools.count // len(prefixes), seed, prefixes, hole, tools.renames)
            tally.note(f"random operations {options}, seed {seed}", found, "")
