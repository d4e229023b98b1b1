"""Calls one by one: what each gives, or the errno that it fails with."""
import ctypes
import fcntl
import mmap
import os
import resource
import signal
import socket
import subprocess
import sys
import time

from ground import Ground, outcome, put, shifted, until, whole

LIBC = ctypes.CDLL(None, use_errno=True)
LARGEST = 1 << 40
RDWR, CREAT, EXCL, TRUNC, APPEND = os.O_RDWR, os.O_CREAT, os.O_EXCL, os.O_TRUNC, os.O_APPEND


def make(path, flags=0):
    """A new open file."""
    return os.open(path, RDWR | CREAT | flags, 0o644)


def names(ground, call):
    """Files are made, found and refused by their names."""
    at = ground.at
    put(at("a"), b"hello")
    call("read", b"hello", whole, at("a"))
    call("create a name that is there", "EEXIST", make, at("a"), EXCL)
    call("open a name that isn't", "ENOENT", os.open, at("no"), RDWR)
    call("stat a name that isn't", "ENOENT", os.stat, at("no"))
    call("unlink a name that isn't", "ENOENT", os.unlink, at("no"))
    call("a name below a file", "ENOTDIR", make, at("a/b"))
    call("the folder for writing", "EISDIR", os.open, ground.mount, RDWR)
    call("list", ["a"], os.listdir, ground.mount)
    for name in ("with space", ".dot", "~tilde", "a\\b", "'q'", "x:y", "n" * 255):
        call(f"name {name}", 1, put, at(name), b"q")
        call(f"read {name}", b"q", whole, at(name))
        call(f"unlink {name}", None, os.unlink, at(name))
    for name in ("new\nline", "tab\t", "del\x7f") + (() if ground.tools.wide else ("\u00e4",)):
        call(f"create {name!r}", "EINVAL", make, at(name))
        call(f"stat {name!r}", "ENOENT", os.stat, at(name))
        call(f"unlink {name!r}", "ENOENT", os.unlink, at(name))
    call("two names that differ in case", (3, 4), lambda: (put(at("Makefile"), b"one"), put(at("makefile"), b"four")))
    call("are two files", (b"one", b"four"), lambda: (whole(at("Makefile")), whole(at("makefile"))))
    call("a third isn't there", "ENOENT", whole, at("MAKEFILE"))
    call("one goes", None, os.unlink, at("makefile"))
    call("and the other stays", b"one", whole, at("Makefile"))
    call("which goes, too", None, os.unlink, at("Makefile"))
    call("a name of 256", "ENAMETOOLONG", make, at("n" * 256))
    call("stat a name of 256", "ENAMETOOLONG", os.stat, at("n" * 256))


def sizes(ground, call):
    """Sizes are cut, grown and told; appends go to the end."""
    at = ground.at
    file = make(at("s"))
    other, third = (os.open(at("s"), os.O_WRONLY | APPEND) for _ in range(2))
    for _ in range(10):
        os.write(other, b"1")
        os.write(third, b"2")
    call("appends by two", b"12" * 10, whole, at("s"))
    call("cut at the open", None, lambda: os.close(os.open(at("s"), os.O_WRONLY | TRUNC)))
    call("size then", 0, lambda: os.fstat(file).st_size)
    call("write behind a gap", 1, os.pwrite, file, b"z", 5)
    call("size with a gap", 6, lambda: os.fstat(file).st_size)
    call("seek to the end", 6, os.lseek, file, 0, os.SEEK_END)
    call("read past the end", b"", os.pread, file, 10, 100)
    call("read far past the end", b"", os.pread, file, 10, LARGEST + 5)
    call("cut by the file", None, os.ftruncate, file, 3)
    call("cut, told by the name", 3, lambda: os.stat(at("s")).st_size)
    call("grow by the name", None, os.truncate, at("s"), 9)
    call("grown, told by the file", 9, lambda: os.fstat(file).st_size)
    call("cut a name that isn't there", "ENOENT", os.truncate, at("no"), 1)
    call("write past the largest", "EFBIG", os.pwrite, file, b"x", LARGEST)
    call("grow past the largest", "EFBIG", os.ftruncate, file, LARGEST + 1)
    call("grow to the largest", None, os.ftruncate, file, LARGEST)
    call("the largest size", LARGEST, lambda: os.fstat(file).st_size)
    call("write the last byte", 1, os.pwrite, file, b"x", LARGEST - 1)
    call("read the last byte", b"x", os.pread, file, 5, LARGEST - 1)
    call("cut again", None, os.ftruncate, file, 9)
    call("a write of 100,000 bytes", 100_000, os.pwrite, file, bytes(range(250)) * 400, 3)
    call("read it back", bytes(range(250)) * 400, os.pread, file, 200_000, 3)
    call("parts", 4, os.pwritev, file, [b"ab", b"cd"], 0)
    call("parts read", b"abcd", os.pread, file, 4, 0)
    for each in (file, other, third):
        os.close(each)
    os.unlink(at("s"))


def deletions(ground, call):
    """A deleted file that is open goes on without a name."""
    at = ground.at
    file = make(at("gone"))
    os.write(file, b"keep")
    os.unlink(at("gone"))
    call("read what is deleted", b"keep", os.pread, file, 9, 0)
    call("write it", 5, os.pwrite, file, b"KEEP2", 0)
    call("its attributes", (5, 0), lambda: (os.fstat(file).st_size, os.fstat(file).st_nlink))
    call("cut it", None, os.ftruncate, file, 2)
    call("sync it", None, os.fsync, file)
    call("its name", "ENOENT", os.stat, at("gone"))
    call("unlink it again", "ENOENT", os.unlink, at("gone"))
    call("is it listed", False, lambda: "gone" in os.listdir(ground.mount))
    begun = time.monotonic()
    call("make its name anew while it is open", "EBUSY", make, at("gone"))
    call("that was refused in time", True, lambda: time.monotonic() - begun < 3)
    os.close(file)
    call("make it anew", None, lambda: os.close(make(at("gone"), EXCL)))
    os.unlink(at("gone"))
    call("make and delete quickly", None, quickly, at("quick"))
    call("all is gone below", True, until, lambda: "quick" not in os.listdir(ground.host))


def quickly(path):
    """A name is made and deleted 200 times."""
    for number in range(200):
        file = make(path, EXCL)
        os.write(file, b"%d" % number)
        os.close(file)
        os.unlink(path)


def refusals(ground, call):
    """What the protocol has no word for is refused."""
    at = ground.at
    put(at("a"), b"hello")
    if ground.tools.renames == "copied":
        call("rename", "EXDEV", os.rename, at("a"), at("c"))
    call("make a folder", "EPERM", os.mkdir, at("d"))
    call("remove a folder", "ENOENT", os.rmdir, at("d"))
    call("remove a file as a folder", "ENOTDIR", os.rmdir, at("a"))
    call("hard link", "EPERM", os.link, at("a"), at("l"))
    call("pipe", "EPERM", os.mkfifo, at("f"))
    call("socket", "EPERM", lambda: socket.socket(socket.AF_UNIX).bind(at("k")))
    call("the mode that it has", None, os.chmod, at("a"), 0o644)
    call("another mode", None, os.chmod, at("a"), 0o755)
    call("and back", None, os.chmod, at("a"), 0o644)
    call("the owner that it has", None, os.chown, at("a"), os.getuid(), os.getgid())
    call("another owner", "EPERM", os.chown, at("a"), os.getuid() + 5, -1)
    call("times of now", None, os.utime, at("a"))
    call("given times", "EPERM", os.utime, at("a"), (1, 1))
    call("an attribute by name", "ENOTSUP", os.setxattr, at("a"), "user.x", b"1")
    call("a file without a name", lambda got: got in ("ENOTSUP", "EOPNOTSUPP", "EISDIR"), os.open, ground.mount, os.O_TMPFILE | RDWR)


def times(ground, call):
    """A write moves the time."""
    at = ground.at
    file = make(at("t"))
    os.write(file, b"1")
    before = os.stat(at("t")).st_mtime
    time.sleep(0.02)
    os.write(file, b"2")
    call("the time moves", True, lambda: os.stat(at("t")).st_mtime > before)
    call("it stays", True, lambda: os.stat(at("t")).st_mtime == os.fstat(file).st_mtime)
    call("the same number", True, lambda: os.stat(at("t")).st_ino == os.fstat(file).st_ino)
    call("another's number", True, lambda: os.stat(at("a")).st_ino != os.fstat(file).st_ino)
    os.close(file)
    os.unlink(at("t"))


def reserve(path):
    """The bare call, which the C library's own doesn't replace by writes."""
    file = os.open(path, RDWR)
    failed = LIBC.fallocate(file, 0, ctypes.c_long(0), ctypes.c_long(100))
    os.close(file)
    if failed:
        raise OSError(ctypes.get_errno(), "")


def write_directly(path):
    """A write of one page past the page cache."""
    file = os.open(path, RDWR | os.O_DIRECT)
    page = mmap.mmap(-1, 4096)
    page.write(b"D" * 4096)
    count = os.writev(file, [page])
    os.close(file)
    return count


def map_shared(path):
    """A byte is changed in a shared mapping."""
    file = os.open(path, RDWR)
    try:
        with mmap.mmap(file, 5) as pages:
            pages[0:1] = b"R"
            pages.flush()
    finally:
        os.close(file)
    return whole(path)[:1]


def map_private(path):
    """All bytes by a private mapping."""
    with open(path, "rb") as file, mmap.mmap(file.fileno(), 0, access=mmap.ACCESS_COPY) as pages:
        return pages[:]


def lock_twice(path):
    """Another process finds a lock."""
    file = os.open(path, RDWR)
    fcntl.lockf(file, fcntl.LOCK_EX)
    script = f"import fcntl, os; fcntl.lockf(os.open({path!r}, os.O_RDWR), fcntl.LOCK_EX | fcntl.LOCK_NB)"
    status = subprocess.run([sys.executable, "-c", script], capture_output=True, timeout=120).returncode
    os.close(file)
    return status


def others(ground, call, is_cached):
    """Calls that the kernel makes of reads and writes."""
    at = ground.at
    data = os.urandom(70_000)
    put(at("o"), b"")
    call("the largest name", 255, lambda: os.statvfs(ground.mount).f_namemax)
    call("reserve", "ENOTSUP", reserve, at("o"))
    call("past the page cache", 4096, write_directly, at("o"))
    source = os.memfd_create("source")
    os.write(source, data)
    target, copy = make(at("o"), TRUNC), make(at("o2"))
    call("send a file in", len(data), send, target, source, len(data))
    call("it is the same", data, whole, at("o"))
    call("copy in the kernel", len(data), copy_range, target, copy, len(data))
    call("it is the same too", data, whole, at("o2"))
    call("sync data", None, os.fdatasync, copy)
    call("private mapping", data, map_private, at("o2"))
    call("shared mapping", b"R" if is_cached else "ENODEV", map_shared, at("o2"))
    call("a lock", 1, lock_twice, at("o"))
    os.close(target)
    os.close(copy)
    os.unlink(at("o2"))
    call("run a file that is no program", "EACCES", os.execv, at("o"), ["o"])
    large(ground, call)


def large(ground, call):
    """Reads and writes of several frames."""
    data = os.urandom(700_001)
    file = make(ground.at("large"))
    call("a large write", len(data), write_all, file, data)
    for start, length in ((0, 700_001), (0, 262_144), (1, 32_769), (32_767, 262_145), (600_000, 200_000), (700_001, 40_000), (655_360, 262_144)):
        call(f"a read of {length} from {start}", data[start:start + length], read_all, file, length, start)
    call("a large write inside", 300_000, os.pwrite, file, bytes(300_000), 100_001)
    call("and all of it", data[:100_001] + bytes(300_000) + data[400_001:], whole, ground.at("large"))
    other = os.open(ground.at("large"), os.O_WRONLY | APPEND)
    call("a large append", 100_000, write_all, other, data[:100_000])
    call("it stands at the end", data[:100_000], read_all, file, 200_000, 700_001)
    call("as much as fits below the largest size", 65_536, os.pwrite, file, bytes(100_000), LARGEST - 65_536)
    os.close(file)
    os.close(other)
    os.unlink(ground.at("large"))


def write_all(file, data):
    """How many bytes were written, by as many calls as that takes."""
    done = 0
    while done < len(data):
        done += os.write(file, data[done:])
    return done


def read_all(file, length, start):
    """The bytes up to that length, or to the file's end."""
    found = b""
    while len(found) < length and (more := os.pread(file, length - len(found), start + len(found))):
        found += more
    return found


def send(target, source, length):
    """Bytes go from a file into another."""
    done = 0
    while done < length:
        done += os.sendfile(target, source, done, length - done)
    return done


def copy_range(source, target, length):
    """The same within the mount."""
    done = 0
    while done < length:
        done += os.copy_file_range(source, target, length - done, done, done)
    return done


def handles(ground, call):
    """The server has 4,096 handles."""
    resource.setrlimit(resource.RLIMIT_NOFILE, (6000, resource.getrlimit(resource.RLIMIT_NOFILE)[1]))
    files = []
    refused = None
    while refused is None and len(files) < 5000:
        try:
            files.append(make(ground.at(f"m{len(files) % 50}")))
        except OSError as error:
            refused = error.strerror
    call("handles", ("Too many open files in system", True), lambda: (refused, 4000 < len(files) <= 4096))
    call("a look then", "ENFILE", os.stat, ground.at("m1"))
    for file in files:
        os.close(file)
    call("and after", True, until, lambda: os.path.exists(ground.at("m1")))
    for number in range(50):
        os.unlink(ground.at(f"m{number}"))


def listings(ground, call):
    """A listing has 32,768 bytes."""
    for number in range(1300):
        put(ground.below(f"long-name-of-a-file-{number:04}"), b"")
    call("many names", 1300, lambda: len([name for name in os.listdir(ground.mount) if name.startswith("long")]))
    for number in range(1300, 1600):
        put(ground.below(f"long-name-of-a-file-{number:04}"), b"")
    call("too many names", "EOVERFLOW", os.listdir, ground.mount)
    for number in range(1600):
        os.unlink(ground.below(f"long-name-of-a-file-{number:04}"))


def plain(tally, tools, *options):
    """All of these, with shift and meter attached."""
    with Ground(tally, tools, *options) as ground:
        ground.attach(shift=100, meter=200)
        for part in (names, sizes, deletions, refusals, times, handles, listings):
            part(ground, tally.call)
        others(ground, tally.call, "cached" in options)
        put(ground.at("a"), b"hello")
        tally.call("the folder below has the filter's bytes", shifted(b"hello"), whole, ground.below("a"))
        for name in os.listdir(ground.mount):
            os.unlink(ground.at(name))
        tally.call("nothing is left", True, until, lambda: os.listdir(ground.host) == [])


def optional(tally, tools):
    """What only options allow."""
    with Ground(tally, tools, "copyrename", "memtimes", "folders=deny:sub:sub/in", "mode=0755", "attr=0.2") as ground:
        at, call = ground.at, tally.call
        for folder in ("deny", "sub", "sub/in"):
            os.mkdir(ground.below(folder))
        ground.attach(guard=300)
        put(at("a"), b"first")
        put(at("b"), b"second")
        call("rename over another", None, os.rename, at("a"), at("b"))
        call("the new name", b"first", whole, at("b"))
        call("the old name", "ENOENT", whole, at("a"))
        call("what is left", ["b", "deny", "sub"], lambda: sorted(os.listdir(ground.mount)))
        put(at("README"), b"read me")
        call("rename in case alone", 0, lambda: subprocess.run(["mv", at("README"), at("Readme")], capture_output=True).returncode)
        call("its bytes are there", b"read me", whole, at("Readme"))
        call("under that name alone", "ENOENT", os.stat, at("README"))
        os.unlink(at("Readme"))
        call("a rename right behind a close waits for no tick", True, lambda: waits_of_renames(at) < 0.005)
        put(at("large"), os.urandom(100_000))
        data = whole(at("large"))
        call("rename what is large", None, os.rename, at("large"), at("l2"))
        call("all of it", data, whole, at("l2"))
        put(at("tmp"), b"new")
        if tools.renames == "copied":
            open_ones(call, at, data)
        call("then it is renamed", None, os.rename, at("tmp"), at("l4"))
        os.unlink(at("l4"))
        call("given times", None, os.utime, at("b"), (5, 7))
        call("they are kept", (5, 7), lambda: (os.stat(at("b")).st_atime, os.stat(at("b")).st_mtime))
        call("the mode", 0o755, lambda: os.stat(at("b")).st_mode & 0o777)
        call("a folder", True, os.path.isdir, at("sub/in"))
        call("a folder in a folder is listed", ["in"], os.listdir, at("sub"))
        call("make a file in a folder", 3, put, at("sub/in/x"), b"abc")
        call("it is there", b"abc", whole, ground.below("sub/in/x"))
        call("what the guard denies", "EACCES", put, at("deny/x"), b"")
        call("stat of that", "EACCES", os.stat, at("deny/x"))
        call("unlink a folder", "EISDIR", os.unlink, at("sub"))
        call("a program", 0, run_program, at("true"))


def open_ones(call, at, data):
    """What is open isn't copied, nor overwritten by a copy."""
    with open(at("l2")) as _:
        call("rename what is open", "EBUSY", os.rename, at("l2"), at("l3"))
        call("rename onto what is open", "EBUSY", os.rename, at("tmp"), at("l2"))
        call("mv onto what is open", True, lambda: subprocess.run(["mv", "-f", at("tmp"), at("l2")], capture_output=True).returncode != 0)
    call("nothing of it is lost", data, whole, at("l2"))
    call("nor of the other", b"new", whole, at("tmp"))


def waits_of_renames(at):
    """How much longer a rename takes right behind the close than later, in seconds: of the fourth shortest of thirty, since others may take the processors."""
    took = {0: [], 0.02: []}
    for number in range(60):
        pause = (0, 0.02)[number % 2]
        put(at("fresh"), b"x")
        time.sleep(pause)
        begun = time.monotonic()
        os.rename(at("fresh"), at("kept"))
        took[pause].append(time.monotonic() - begun)
    os.unlink(at("kept"))
    return sorted(took[0])[3] - sorted(took[0.02])[3]


def run_program(path):
    """A program that lies in the mount."""
    put(path, whole("/bin/true"))
    return subprocess.run([path], timeout=120).returncode


def own_changes(tally, tools):
    """A mount that is alone keeps names and attributes, and what it changes itself is right at once."""
    with Ground(tally, tools, "below={host}", "keep", "attr=60", alone=True) as ground:
        at, call = ground.at, tally.call
        size = lambda name: os.stat(at(name)).st_size  # noqa: E731
        put(at("a"), b"first")
        call("a look", 5, size, "a")
        ground.server.send_signal(signal.SIGSTOP)
        call("a second one asks nobody", 5, size, "a")
        ground.server.send_signal(signal.SIGCONT)
        file = os.open(at("a"), os.O_RDWR | os.O_APPEND)
        os.write(file, b"more")
        call("the size of what is written", (9, 9), lambda: (size("a"), os.fstat(file).st_size))
        os.ftruncate(file, 3)
        call("of what is cut", (3, 3), lambda: (size("a"), os.fstat(file).st_size))
        put(at("b"), b"another")
        if tools.renames != "all":  # what is open keeps its name
            os.close(file)
            file = -1
        call("of what is replaced", 7, size, "b")
        call("of what replaces it", (None, 3), lambda: (os.rename(at("a"), at("b")), size("b")))
        call("the old name", "ENOENT", size, "a")
        if file != -1:
            os.close(file)
        os.unlink(at("b"))
        call("a name that is gone", "ENOENT", size, "b")
        put(at("b"), b"anew")
        call("and comes back", 4, size, "b")
        call("a time", (None, 7), lambda: (os.utime(at("b"), (5, 7)), os.stat(at("b")).st_mtime))
        call("a mode", (None, 0o600), lambda: (os.chmod(at("b"), 0o600), os.stat(at("b")).st_mode & 0o777))
        links = os.stat(ground.mount).st_nlink
        os.mkdir(at("d"))
        call("a folder in a folder", links + 1, lambda: os.stat(ground.mount).st_nlink)
        os.rmdir(at("d"))
        call("that is gone", (links, "ENOENT"), lambda: (os.stat(ground.mount).st_nlink, outcome(os.stat, at("d"))))


def run(tally, tools):
    """Calls one by one."""
    own_changes(tally, tools)
    plain(tally, tools)
    plain(tally, tools, "cached")
    optional(tally, tools)
