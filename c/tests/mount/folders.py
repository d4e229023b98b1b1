"""Folders, with the folder below: they are made, removed, listed and renamed there, and filters hear of what lies in them. And owners that are kept."""
import os
import subprocess
import sys

from ground import Ground, outcome, put, until, whole


def made(tally, tools):
    """Without the folder below none is made. With it they are made there, and hold files."""
    with Ground(tally, tools) as ground:
        tally.call("a folder without the folder below", "EPERM", os.mkdir, ground.at("d"))
    with Ground(tally, tools, "below={host}") as ground:
        at, call = ground.at, tally.call
        ground.attach(shift=100)
        call("a folder", None, os.mkdir, at("d"), 0o750)
        call("it is one below", True, os.path.isdir, ground.below("d"))
        call("its mode", 0o40750, lambda: os.stat(at("d")).st_mode)
        call("again", "EEXIST", os.mkdir, at("d"))
        call("a folder in it", None, os.mkdir, at("d/e"))
        call("one in none", "ENOENT", os.mkdir, at("n/e"))
        call("a file in it", 3, put, at("d/e/f"), b"abc")
        call("is read back", b"abc", whole, at("d/e/f"))
        call("a filter heard of it", b"bcd", whole, ground.below("d/e/f"))
        put(at("g"), b"x")
        call("the root's names", ["d", "g"], lambda: sorted(os.listdir(at(""))))
        call("a folder's", ["e"], os.listdir, at("d"))
        call("one in that", ["f"], os.listdir, at("d/e"))
        call("a folder that isn't empty", "ENOTEMPTY", os.rmdir, at("d/e"))
        call("it is no file", "EISDIR", os.unlink, at("d/e"))
        call("a file is no folder", "ENOTDIR", os.rmdir, at("g"))
        call("the file goes", None, os.unlink, at("d/e/f"))
        call("and the folder", None, os.rmdir, at("d/e"))
        call("it is gone below", False, os.path.exists, ground.below("d/e"))
        call("folders whose last file was deleted while it was open", 20, emptied, at)
        call("and here", "ENOENT", os.stat, at("d/e"))
        call("a module that is written between two imports is found", (0, b""), imported, ground.mount)
        call("a file of its name", 4, put, at("d/e"), b"file")
        call("is a file", b"file", whole, at("d/e"))


def imported(folder):
    """Python looks whether a folder's time has moved since it last looked for a module there."""
    script = "import sys, time; sys.path.insert(0, '.'); import first; time.sleep(0.1); open('second.py', 'w').close(); import second"
    put(os.path.join(folder, "first.py"), b"")
    done = subprocess.run([sys.executable, "-B", "-c", script], cwd=folder, capture_output=True, timeout=120)
    return done.returncode, done.stderr


def emptied(at):
    """A file is deleted while it is open, and closed; then its folder goes: how often that is so."""
    for _ in range(20):
        os.mkdir(at("emptied"))
        file = os.open(at("emptied/f"), os.O_CREAT | os.O_RDWR)
        os.unlink(at("emptied/f"))
        os.close(file)
        os.rmdir(at("emptied"))
    return 20


def outside(tally, tools):
    """The mount follows no link, and reaches nothing outside. What is neither a file nor a folder nor a link isn't shown."""
    with Ground(tally, tools, "below={host}") as ground:
        at, call = ground.at, tally.call
        os.mkdir(os.path.join(ground.room, "out"))
        os.symlink("../out", ground.below("link"))
        os.mkdir(ground.below("d"))
        os.mkfifo(ground.below("d/pipe"))
        os.symlink("../../out", ground.below("d/link"))
        os.mkdir(ground.below("d/\x01"))
        put(ground.below("d/f"), b"f")
        put(os.path.join(ground.room, "out/secret"), b"secret")
        call("a folder's names", ["f", "link"], lambda: sorted(os.listdir(at("d"))))
        call("a link is one", "../../out", os.readlink, at("d/link"))
        call("its size", 9, lambda: os.lstat(at("d/link")).st_size)
        call("and no folder", "ENOTDIR", os.rmdir, at("d/link"))
        call("removed", None, os.unlink, at("d/link"))
        call("what it led to is there", ["secret"], os.listdir, os.path.join(ground.room, "out"))


def linked(tally, tools):
    """Links are made in the folder below, by the mount's user; each program follows them by itself."""
    with Ground(tally, tools) as ground:
        os.symlink("there", ground.below("l"))
        put(ground.below("there"), b"bytes")
        tally.call("without the folder below none is made", "EPERM", os.symlink, "a", ground.at("x"))
        tally.call("and the server follows them", b"bytes", whole, ground.at("l"))
    with Ground(tally, tools, "below={host}") as ground:
        at, call = ground.at, tally.call
        ground.attach(shift=100)
        os.mkdir(at("d"))
        put(at("d/f"), b"abc")
        call("a link", None, os.symlink, "d/f", at("l"))
        call("is one below", "d/f", os.readlink, ground.below("l"))
        call("what it leads to is read through the filters", b"abc", whole, at("l"))
        call("and written", 4, put, at("l"), b"abcd")
        call("as filters leave it", b"bcde", whole, ground.below("d/f"))
        call("the root's names", [("d", True), ("l", False)], lambda: sorted((entry.name, entry.is_dir(follow_symlinks=False)) for entry in os.scandir(ground.mount)))
        call("it is a link there, too", True, lambda: {entry.name: entry.is_symlink() for entry in os.scandir(ground.mount)}["l"])
        os.symlink("../l", at("d/up"))
        call("a folder with a link in it is renamed", None, os.rename, at("d"), at("e"))
        call("the link says the same", "../l", os.readlink, at("e/up"))
        call("where it leads isn't there any more", "ENOENT", whole, at("l"))
        put(at("new"), b"new")
        if tools.renames == "copied":
            with open(at("new"), "rb"):
                call("an open file isn't renamed onto a link", "EBUSY", os.rename, at("new"), at("l"))
            call("the link stays", "d/f", os.readlink, at("l"))
        call("a closed one is", None, os.rename, at("new"), at("l"))
        call("and is a file", (b"new", False), lambda: (whole(at("l")), os.path.islink(ground.below("l"))))


def twice(tally, tools):
    """A file that has two names keeps its bytes when it is renamed from the one to the other. With the folder below it keeps both names, as POSIX says."""
    for options, wanted in ((("below={host}",), (b"bytes", b"bytes")), (("copyrename",), ("ENOENT" if tools.renames == "copied" else b"bytes", b"bytes"))):
        with Ground(tally, tools, *options) as ground:
            at, call = ground.at, tally.call
            ground.attach(shift=100)
            put(at("a"), b"bytes")
            os.link(ground.below("a"), ground.below("b"))
            call(f"a file that has both names is renamed with {options}", None, os.rename, at("a"), at("b"))
            call("its bytes are there", wanted, lambda: tuple(outcome(whole, at(name)) for name in "ab"))
            put(at("long"), b"longer than that")
            put(at("short"), b"short")
            call("a short one onto a long one", None, os.rename, at("short"), at("long"))
            call("has nothing of that", b"short", whole, at("long"))


def told(tally, tools):
    """How much room a file takes is what it takes below, so holes show. Without the folder below it is its size."""
    with Ground(tally, tools) as ground:
        for size, blocks in ((0, 0), (1, 1), (512, 1), (513, 2), (100_003, 196)):
            put(ground.at("f"), bytes(size))
            tally.call(f"blocks of {size} bytes", blocks, lambda: os.stat(ground.at("f")).st_blocks)
    with Ground(tally, tools, "below={host}") as ground:
        at, call = ground.at, tally.call
        file = os.open(at("f"), os.O_CREAT | os.O_RDWR)
        os.ftruncate(file, 1 << 20)
        os.pwrite(file, bytes(4096), 1 << 19)
        for what, look in (("by name", lambda: os.stat(at("f")).st_blocks), ("open", lambda: os.fstat(file).st_blocks)):
            call(f"a hole takes no room, {what}", os.stat(ground.below("f")).st_blocks, look)
            call(f"that is less than its size, {what}", True, lambda: 0 < look() < (1 << 20) // 512)
        os.close(file)


def many(tally, tools):
    """A list has all names of the root, also those that have no room in a frame."""
    with Ground(tally, tools, "below={host}") as ground:
        names = [f"long-name-of-a-file-{number:04}" for number in range(1600)]
        for name in names:
            put(ground.below(name), b"")
        os.mkdir(ground.below("d"))
        tally.call("the root's names", ["d"] + names, lambda: sorted(os.listdir(ground.mount)))


def moved(tally, tools):
    """Files and folders get other names. Each file is copied through the filters."""
    with Ground(tally, tools, "below={host}") as ground:
        at, call = ground.at, tally.call
        ground.attach(shift=100)
        for folder in ("a", "a/b", "empty", "full"):
            os.mkdir(at(folder))
        for name in ("a/1", "a/b/2", "full/3", "file"):
            put(at(name), name.encode())
        call("a file into a folder", None, os.rename, at("file"), at("a/moved"))
        call("it is there", b"file", whole, at("a/moved"))
        call("a folder onto one that isn't empty", "ENOTEMPTY", os.rename, at("a"), at("full"))
        call("onto a file", "ENOTDIR", os.rename, at("a"), at("full/3"))
        call("a file onto a folder", "EISDIR", os.rename, at("a/1"), at("empty"))
        call("into itself", "EINVAL", os.rename, at("a"), at("a/b/c"))
        if tools.renames == "copied":
            with open(at("a/b/2"), "rb"):
                call("while a file in it is open", "EBUSY", os.rename, at("a"), at("z"))
        put(at("a/gone"), b"gone")
        with open(at("a/gone"), "rb"):
            os.unlink(at("a/gone"))
            call("while a deleted file in it is open", "EBUSY", os.rename, at("a"), at("z"))
        call("nothing was moved", ["1", "b", "moved"], lambda: sorted(os.listdir(at("a"))))
        before = os.stat(at("a")).st_mtime_ns
        put(at("a/later"), b"")
        call("a folder's time moves with its names", True, until, lambda: os.stat(at("a")).st_mtime_ns > before)
        os.unlink(at("a/later"))
        call("a folder in it is a link to it", 3, lambda: os.stat(at("a")).st_nlink)
        call("onto an empty one", None, os.rename, at("a"), at("empty"))
        call("the old one is gone", "ENOENT", os.stat, at("a"))
        call("all is in the new one", ["1", "b", "moved"], lambda: sorted(os.listdir(at("empty"))))
        call("and below that", b"a/b/2", whole, at("empty/b/2"))
        call("as filters left it", bytes(byte + 1 for byte in b"a/b/2"), whole, ground.below("empty/b/2"))
        os.mkfifo(ground.below("full/pipe"))
        call("with a pipe in it", "EXDEV", os.rename, at("full"), at("other"))


def denied(tally, tools):
    """What a filter denies isn't got round by a rename: the old name stays."""
    with Ground(tally, tools, "below={host}") as ground:
        at, call = ground.at, tally.call
        os.mkdir(ground.below("deny"))
        os.mkdir(ground.below("d"))
        put(ground.below("d/f"), b"f")
        put(ground.below("g"), b"g")
        ground.attach(guard=100)
        call("a create in a folder that is guarded", "EACCES", put, at("deny/x"), b"x")
        call("a file into it", "EACCES", os.rename, at("g"), at("deny/g"))
        call("stays where it was", b"g", whole, at("g"))
        os.rmdir(ground.below("deny"))
        call("a folder of that name", "EACCES", os.rename, at("d"), at("deny"))
        call("its file stays", b"f", whole, at("d/f"))


def owned(tally, tools):
    """With keep owners are kept, of files and of folders, and modes and times with them."""
    with Ground(tally, tools, "below={host}") as ground:
        put(ground.at("f"), b"f")
        tally.call("another owner", "EPERM", os.chown, ground.at("f"), 12, 34)
    with Ground(tally, tools, "below={host}", "keep") as ground:
        at, call = ground.at, tally.call

        def owner(path):
            is_now = os.stat(at(path))
            return is_now.st_uid, is_now.st_gid

        put(at("f"), b"f")
        os.mkdir(at("d"))
        call("a new file is its maker's", (os.getuid(), os.getgid()), owner, "f")
        call("another owner", None, os.chown, at("f"), 12, 34)
        call("is kept", (12, 34), owner, "f")
        call("another group alone", None, os.chown, at("f"), -1, 35)
        call("is kept with the owner", (12, 35), owner, "f")
        call("a folder's owner", None, os.chown, at("d"), 12, 34)
        call("is kept too", (12, 34), owner, "d")
        call("its mode", None, os.chmod, at("d"), 0o700)
        call("is", 0o40700, lambda: os.stat(at("d")).st_mode)
        call("renamed", None, os.rename, at("d"), at("e"))
        call("it has both", (0o40700, (12, 34)), lambda: (os.stat(at("e")).st_mode, owner("e")))
        call("a time", None, os.utime, at("f"), (5, 6))
        call("is kept beside the owner", (6, (12, 35)), lambda: (int(os.stat(at("f")).st_mtime), owner("f")))
        call("another name", None, os.rename, at("f"), at("g"))
        call("keeps the time", 6, lambda: os.stat(at("g")).st_mtime)
        ground.unmount()
        call("below it stays", (5, 6), lambda: (os.stat(ground.below("g")).st_atime, os.stat(ground.below("g")).st_mtime))
        ground.start_mount()
        call("and is there in another mount", (5, 6), lambda: (os.stat(at("g")).st_atime, os.stat(at("g")).st_mtime))
        put(at("g"), b"later")
        call("until it is written", True, lambda: os.stat(at("g")).st_mtime > 6)


def spelled(tally, tools):
    """Letters beyond ASCII and long paths, as far as the server has them."""
    with Ground(tally, tools, "below={host}") as ground:
        at, call = ground.at, tally.call
        call("a letter beyond ASCII", 5 if tools.wide else "EINVAL", put, at("gr\u00f6\u00dfe"), b"bytes")
        call("one below", 1, put, ground.below("\u65e5\u672c"), b"x")
        call("is read", b"x" if tools.wide else "ENOENT", whole, at("\u65e5\u672c"))
        call("what is listed", ["gr\u00f6\u00dfe", "\u65e5\u672c"] if tools.wide else [], lambda: sorted(os.listdir(ground.mount)))
        call("what isn't UTF-8", "EINVAL", put, os.fsencode(ground.mount) + b"/\xff", b"")
        call("a name that is too long", "ENAMETOOLONG", put, at("n" * 256), b"")
        path, made = ground.mount, 0
        while len(path) - len(ground.mount) < 900 and outcome(os.mkdir, path + "/folder_01") is None:
            path, made = path + "/folder_01", made + 1
        call("folders in folders", 90 if tools.wide else 25, lambda: made)
        call("a file in them", 5, put, path + "/f", b"bytes")
        call("is read", b"bytes", whole, path + "/f")
        if tools.wide:
            call("another name", None, os.rename, at("gr\u00f6\u00dfe"), path + "/\u00e9")
            call("its bytes", b"bytes", whole, path + "/\u00e9")
            call("a link's", None, os.symlink, "\u65e5\u672c", at("\u00fc"))
            call("leads there", b"x", whole, at("\u00fc"))


def run(tally, tools):
    """All of it."""
    spelled(tally, tools)
    made(tally, tools)
    outside(tally, tools)
    linked(tally, tools)
    twice(tally, tools)
    told(tally, tools)
    many(tally, tools)
    moved(tally, tools)
    denied(tally, tools)
    owned(tally, tools)
