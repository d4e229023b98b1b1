"""Modes that the mount keeps, users that they keep out, numbers of files, and the folder below: its room, and its syncs."""
import os
import subprocess
import tempfile

from ground import Ground, outcome, put, until, whole

NOBODY = 65534
CREAT, EXCL, RDWR = os.O_CREAT, os.O_EXCL, os.O_RDWR
SMALL = 256 * 1024


def make(path, mode, flags=EXCL):
    """A new file of that mode, which has three bytes."""
    file = os.open(path, CREAT | RDWR | flags, mode)
    os.write(file, b"key")
    os.close(file)


def mode_of(path):
    """The mode that a program is told."""
    return os.stat(path).st_mode & 0o7777


def kept(tally, tools):
    """A create's mode is kept, and a later one of that file. Of other files it is that of the mount."""
    with Ground(tally, tools, "copyrename") as ground:
        at, call = ground.at, tally.call
        for mode, flags in ((0o600, EXCL), (0o600, 0), (0o644, EXCL), (0o755, EXCL), (0o400, EXCL), (0o000, EXCL)):
            call(f"a file of mode {mode:o}", None, make, at("m"), mode, flags)
            call(f"has {mode:o}", mode, mode_of, at("m"))
            os.unlink(at("m"))
        call("less the umask", 0o640, masked, at("masked"), 0o027)
        make(at("k"), 0o600)
        call("a second create", None, make, at("k"), 0o644, 0)
        call("changes no mode", 0o600, mode_of, at("k"))
        call("another mode", None, os.chmod, at("k"), 0o640)
        call("is kept", 0o640, mode_of, at("k"))
        call("it can't be run", False, os.access, at("k"), os.X_OK)
        call("a mode with a user's identity", "EPERM", os.chmod, at("k"), 0o4755)
        call("renamed", None, os.rename, at("k"), at("r"))
        call("it has it still", 0o640, mode_of, at("r"))
        put(ground.below("old"), b"old")
        call("a file that was there", 0o644, mode_of, at("old"))
        call("another mode of that", "EPERM", os.chmod, at("old"), 0o600)
        os.unlink(ground.below("r"))
        call("deleted behind the mount", "ENOENT", os.stat, at("r"))
        put(ground.below("r"), b"new")
        call("a new one has the mount's", 0o644, mode_of, at("r"))


def below(tally, tools):
    """With the folder below its files have the modes too, and can be read and written by their owner."""
    with Ground(tally, tools, "below={host}", "copyrename") as ground:
        at, call = ground.at, tally.call
        for mode, wanted in ((0o600, 0o600), (0o640, 0o640), (0o644, 0o644), (0o400, 0o600), (0o666, 0o644)):
            make(at("m"), mode)
            call(f"below, {mode:o}", wanted, mode_of, ground.below("m"))
            os.unlink(at("m"))
        make(at("k"), 0o600)
        call("below, another mode", None, os.chmod, at("k"), 0o444)
        call("is had, and may be written", 0o644, mode_of, ground.below("k"))
        call("below, a mode again", None, os.chmod, at("k"), 0o600)
        call("below, renamed", None, os.rename, at("k"), at("r"))
        call("it has the mode", 0o600, mode_of, ground.below("r"))
        put(ground.below("other"), b"other")
        os.symlink("other", ground.below("link"))
        call("a file behind a link", None, make, at("link"), 0o600, 0)
        call("keeps its mode", 0o644, mode_of, ground.below("other"))


def masked(path, umask):
    """The mode of a file that is made under a umask."""
    os.umask(umask)
    make(path, 0o666)
    os.umask(0o022)
    return mode_of(path)


def bounded(tally, tools):
    """A given mode bounds those of new files, and lets run what may be read. With memmodes each mode is kept."""
    with Ground(tally, tools, "mode=0750", "memmodes") as ground:
        at, call = ground.at, tally.call
        for mode, wanted in ((0o644, 0o750), (0o600, 0o700), (0o400, 0o500), (0o200, 0o200)):
            make(at("m"), mode)
            call(f"bounded {mode:o}", wanted, mode_of, at("m"))
            os.unlink(at("m"))
        put(ground.below("old"), b"old")
        call("a mode of what was there", None, os.chmod, at("old"), 0o604)
        call("is kept with memmodes", 0o604, mode_of, at("old"))
        call("a mode of the folder", "EPERM", os.chmod, ground.mount, 0o700)


def as_nobody(function, *words):
    """What a call gives another user: `done`, or the error's name."""
    readable, writable = os.pipe()
    child = os.fork()
    if child == 0:
        os.setgroups([])
        os.setgid(NOBODY)
        os.setuid(NOBODY)
        got = outcome(function, *words)
        os.write(writable, (got if isinstance(got, str) else "done").encode())
        os._exit(0)
    os.close(writable)
    os.waitpid(child, 0)
    with open(readable) as said:
        return said.read()


def others(tally, tools):
    """Another user comes in with allow_other alone, and as far as the modes say."""
    if os.getuid() != 0:
        print("mount: left out: another user, for whom root is needed")
        return
    for options, wanted in (((), ("EACCES",) * 5), (("allow_other",), ("EACCES", "done", "EACCES", "EACCES", "EACCES"))):
        with Ground(tally, tools, *options) as ground:
            os.chmod(ground.room, 0o755)
            make(ground.at("key"), 0o600)
            make(ground.at("open"), 0o644)
            calls = ((os.open, ground.at("key"), os.O_RDONLY), (os.open, ground.at("open"), os.O_RDONLY), (os.open, ground.at("open"), RDWR), (os.unlink, ground.at("open")), (make, ground.at("new"), 0o644))
            tally.note(f"another user with {options}", tuple(as_nobody(*call) for call in calls), wanted)
            tally.call("it has its bytes", b"key", whole, ground.below("open"))


def number_of(path):
    """The number that a program is told."""
    return os.stat(path).st_ino


def numbers(tally, tools):
    """A name that comes back has another number, a renamed file its own; a list says the same."""
    with Ground(tally, tools, "copyrename") as ground:
        at, call = ground.at, tally.call
        seen = set()
        for _ in range(20):
            make(at("n"), 0o644)
            seen.add(number_of(at("n")))
            os.unlink(at("n"))
        call("each of twenty has its own number", 20, lambda: len(seen))
        make(at("a"), 0o644)
        number = number_of(at("a"))
        os.rename(at("a"), at("b"))
        call("renamed, it has its number", number, number_of, at("b"))
        make(at("a"), 0o644)
        call("and the old name another", True, lambda: number_of(at("a")) != number)
        call("a list says the same", {name: number_of(at(name)) for name in "ab"}, lambda: {entry.name: entry.inode() for entry in os.scandir(ground.mount)})


def sync(path):
    """Syncs a folder."""
    folder = os.open(path, os.O_RDONLY)
    try:
        os.fsync(folder)
    finally:
        os.close(folder)


def syncs(tally, tools):
    """A sync of a folder reaches the folder below; without that it has nothing to do, since servers write names out."""
    with Ground(tally, tools) as ground:
        tally.call("a folder's sync without the folder below", None, sync, ground.mount)
    with Ground(tally, tools, "below={host}", "folders=in:not") as ground:
        os.mkdir(ground.below("in"))
        tally.call("a folder's sync", None, sync, ground.mount)
        tally.call("one in it", None, sync, ground.at("in"))
        tally.call("one that isn't below", "ENOENT", sync, ground.at("not"))
        tally.call("it is the folder's own room", os.statvfs(ground.host).f_blocks, lambda: os.statvfs(ground.mount).f_blocks)
        tally.call("the largest name then", 255, lambda: os.statvfs(ground.mount).f_namemax)
        with tempfile.TemporaryDirectory() as place:
            done = subprocess.run(tools.mount + ["-o", "below=/nowhere", ground.socket, place, "-f"], capture_output=True, text=True, timeout=120)
            tally.note("a folder that isn't there", (done.returncode, "/nowhere: No such file" in done.stderr), (3, True))


def fill(path):
    """Writes until it is refused: the errno's name is in the error."""
    file = os.open(path, CREAT | RDWR)
    try:
        while os.write(file, bytes(32768)):
            pass
    finally:
        os.close(file)


def full(tally, tools):
    """A full disk is told where the folder is named, and is an error of the device where it isn't."""
    with tempfile.TemporaryDirectory() as place:
        if subprocess.run(["mount", "-t", "tmpfs", "-o", f"size={SMALL}", "small", place], capture_output=True).returncode != 0:
            print("mount: left out: a full disk, which can't be had here")
            return
        try:
            for options, wanted in (((), "EIO"), (("below={host}",), "ENOSPC")):
                with Ground(tally, tools, *options, place=place) as ground:
                    tally.call(f"a full disk with {options}", wanted, fill, ground.at("x"))
                    os.unlink(ground.at("x"))
                    tally.call("and with room again", True, until, lambda: put(ground.at("y"), b"hello") == 5)
                    if options and tools.renames == "copied":
                        crowded(tally, ground)
        finally:
            subprocess.run(["umount", "-l", place], check=True)


def crowded(tally, ground):
    """A rename for whose copy there is no room: both files are as before."""
    data = bytes(SMALL * 3 // 4)
    put(ground.at("large"), data)
    tally.call("a rename without room", "ENOSPC", os.rename, ground.at("large"), ground.at("y"))
    tally.call("what it would have replaced", b"hello", whole, ground.at("y"))
    tally.call("what would have replaced it", data, whole, ground.at("large"))


def run(tally, tools):
    """All of these."""
    os.umask(0o022)
    for part in (kept, below, bounded, others, numbers, syncs, full):
        part(tally, tools)
