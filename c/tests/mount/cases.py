"""What POSIX has each call of a file system answer: rows by call, as those of pjdfstest, written anew. Each row is tried in a plain folder of the machine and in the mount, and both have to
answer as it says; where the mount answers otherwise, DIFFERENT says how, and why.

A row is a list of steps, each in a folder with the same things in it (THERE): a word of CALLS, what it is given, and what comes of it: a value, None, or an errno's name. `nobody` in
front has another user make the call."""
import os
import shutil
import stat
import subprocess
import tempfile

from ground import Ground, outcome, put, whole
from modes import NOBODY

LONG = "n" * 256
CREAT, EXCL, RDWR, RDONLY, WRONLY, TRUNC = os.O_CREAT, os.O_EXCL, os.O_RDWR, os.O_RDONLY, os.O_WRONLY, os.O_TRUNC

# f and e are files, s is nobody else's to read; d has a file, n and m are empty folders, t has the sticky bit, and p is private; the others are links.
FILES = {"f": b"hello", "e": b"", "s": b"secret", "d/in": b"in", "t/f": b"sticky", "p/f": b"private"}
FOLDERS = {"d": 0o755, "n": 0o755, "m": 0o755, "t": 0o1777, "t/n": 0o755, "p": 0o700}
LINKS = {"lf": "f", "ld": "d", "ln": "nowhere", "loop": "loop"}
NAMES = ["d", "e", "f", "ld", "lf", "ln", "loop", "m", "n", "p", "s", "t"]


def opened(path, flags, mode=0o644):
    """Whether it can be opened."""
    os.close(os.open(path, flags, mode))


def with_open(path, flags, call):
    """A call of an open file."""
    file = os.open(path, flags)
    try:
        return call(file)
    finally:
        os.close(file)


def later(path, *call):
    """Whether the file's time of change is later behind a call."""
    before = os.lstat(path).st_ctime_ns
    for _ in range(200):
        ask(os.path.dirname(path), call)
        if os.lstat(path).st_ctime_ns > before:
            return True
    return False


def unlinked(path):
    """What is read and told of a file that was deleted while it is open."""
    file = os.open(path, RDWR)
    os.unlink(path)
    try:
        return os.pread(file, 9, 0), os.fstat(file).st_nlink
    finally:
        os.close(file)


def rename_with(path, to, flags):
    """A rename with flags: 1 has it replace nothing, 2 exchange both."""
    from calls import LIBC, ctypes  # pylint: disable=import-outside-toplevel
    if LIBC.renameat2(-100, path.encode(), -100, to.encode(), flags) != 0:
        raise OSError(ctypes.get_errno(), "")


CALLS = {
    "chmod": os.chmod,
    "chown": os.chown,
    "ftruncate": lambda path, flags, size: with_open(path, flags, lambda file: os.ftruncate(file, size)),
    "link": None,
    "mkdir": os.mkdir,
    "mkfifo": os.mkfifo,
    "open": opened,
    "rename": None,
    "rename with": None,
    "rmdir": os.rmdir,
    "symlink": None,
    "truncate": os.truncate,
    "unlink": os.unlink,
    "unlink open": unlinked,
    "utime": lambda path, times=None, follow=True: os.utime(path, times, follow_symlinks=follow),
    # looks
    "read": whole,
    "size": lambda path: os.stat(path).st_size,
    "mode": lambda path: stat.S_IMODE(os.stat(path).st_mode),
    "owner": lambda path: (os.stat(path).st_uid, os.stat(path).st_gid),
    "links": lambda path: os.lstat(path).st_nlink,
    "kind": lambda path: stat.filemode(os.lstat(path).st_mode)[0],
    "times": lambda path: (os.lstat(path).st_atime, os.lstat(path).st_mtime),
    "readlink": os.readlink,
    "list": lambda path: sorted(os.listdir(path)),
    "later": later,
}


def ask(folder, step):
    """A call in a folder."""
    word, *given = step
    at = lambda name: os.path.join(folder, name)  # noqa: E731
    if word in ("rename", "link"):
        return getattr(os, word)(at(given[0]), at(given[1]))
    if word == "rename with":
        return rename_with(at(given[0]), at(given[1]), given[2])
    if word == "symlink":
        return os.symlink(given[0], at(given[1]))
    return CALLS[word](at(given[0]), *given[1:])


def walks(call, *more, is_follow=True):
    """What is wrong with a path is the same for each call: a part that is no folder, or isn't there, is too long, or a circle of links; and a folder that isn't the user's."""
    rows = [[(call, "f/x", *more, "ENOTDIR")], [(call, "no/x", *more, "ENOENT")], [(call, LONG, *more, "ENAMETOOLONG")], [(call, LONG + "/x", *more, "ENAMETOOLONG")],
            [(call, "loop/x", *more, "ELOOP")], [("nobody", call, "p/f", *more, "EACCES")]]
    return rows + ([[(call, "no", *more, "ENOENT")], [(call, "ln", *more, "ENOENT")], [(call, "loop", *more, "ELOOP")]] if is_follow else [])


ROWS = {
    "chmod": walks("chmod", 0o600) + [
        [("chmod", "f", 0o640, None), ("mode", "f", 0o640)],
        [("chmod", "d", 0o711, None), ("mode", "d", 0o711)],
        [("chmod", "lf", 0o601, None), ("mode", "f", 0o601), ("kind", "lf", "l")],
        [("chmod", "d", 0o1777, None), ("mode", "d", 0o1777)],
        [("chmod", "f", 0o4755, None)],
        [("chmod", "d", 0o2755, None)],
        [("later", "f", "chmod", "f", 0o640, True)],
        [("later", "d", "chmod", "d", 0o711, True)],
        [("nobody", "chmod", "f", 0o666, "EPERM"), ("mode", "f", 0o644)],
    ],
    "chown": walks("chown", 12, 34) + [
        [("chown", "f", 12, 34, None), ("owner", "f", (12, 34))],
        [("chown", "f", -1, 35, None), ("owner", "f", (os.getuid(), 35))],
        [("chown", "d", 12, 34, None), ("owner", "d", (12, 34))],
        [("chown", "lf", 12, 34, None), ("owner", "f", (12, 34))],
        [("later", "f", "chown", "f", 12, 34, True)],
        [("nobody", "chown", "f", NOBODY, NOBODY, "EPERM"), ("owner", "f", (os.getuid(), os.getgid()))],
    ],
    "ftruncate": [
        [("ftruncate", "f", RDWR, 2, None), ("read", "f", b"he")],
        [("ftruncate", "f", WRONLY, 7, None), ("read", "f", b"hello\0\0")],
        [("ftruncate", "f", RDWR, 0, None), ("size", "f", 0)],
        [("ftruncate", "f", RDONLY, 2, "EINVAL"), ("size", "f", 5)],
        [("ftruncate", "f", RDWR, -1, "EINVAL"), ("size", "f", 5)],
        [("ftruncate", "d", RDONLY, 0, "EINVAL")],
        [("later", "f", "ftruncate", "f", RDWR, 3, True)],
    ],
    "link": [
        [("link", "f", "g", None), ("read", "g", b"hello"), ("links", "f", 2)],
        [("link", "f", "e", "EEXIST"), ("read", "e", b"")],
        [("link", "f", "d", "EEXIST")],
        [("link", "f", "ln", "EEXIST")],
        [("link", "d", "g", "EPERM")],
        [("link", "no", "g", "ENOENT")],
        [("link", "f", "no/g", "ENOENT")],
        [("link", "f/x", "g", "ENOTDIR")],
        [("link", "f", "e/g", "ENOTDIR")],
        [("link", LONG, "g", "ENAMETOOLONG")],
        [("link", "f", LONG, "ENAMETOOLONG")],
        [("link", "loop/x", "g", "ELOOP")],
        [("link", "f", "loop/x", "ELOOP")],
        [("nobody", "link", "f", "p/g", "EACCES")],
    ],
    "mkdir": walks("mkdir", is_follow=False) + [
        [("mkdir", "x", 0o750, None), ("mode", "x", 0o750), ("list", "x", [])],
        [("mkdir", "x", 0o1777, None), ("mode", "x", 0o1755)],
        [("mkdir", "d/x", None), ("links", "d", 3)],
        [("mkdir", "ld/x", None), ("list", "d", ["in", "x"])],
        [("mkdir", "f", "EEXIST")],
        [("mkdir", "d", "EEXIST")],
        [("mkdir", "ln", "EEXIST"), ("kind", "ln", "l")],
        [("mkdir", "d/.", "EEXIST")],
        [("nobody", "mkdir", "x", "EACCES")],
    ],
    "mkfifo": walks("mkfifo", is_follow=False) + [
        [("mkfifo", "x", None)],
        [("mkfifo", "f", "EEXIST")],
        [("mkfifo", "d", "EEXIST")],
        [("mkfifo", "ln", "EEXIST")],
        [("nobody", "mkfifo", "x", "EACCES")],
    ],
    "open": walks("open", RDONLY) + [
        [("open", "x", CREAT | RDWR, 0o640, None), ("mode", "x", 0o640), ("size", "x", 0)],
        [("open", "f", CREAT | RDWR, 0o600, None), ("mode", "f", 0o644), ("read", "f", b"hello")],
        [("open", "f", CREAT | EXCL | RDWR, "EEXIST")],
        [("open", "d", CREAT | EXCL | RDWR, "EEXIST")],
        [("open", "ln", CREAT | EXCL | RDWR, "EEXIST"), ("list", "", NAMES)],
        [("open", "ln", CREAT | RDWR, None), ("kind", "nowhere", "-")],
        [("open", "f", RDWR | TRUNC, None), ("size", "f", 0)],
        [("open", "d", RDWR, "EISDIR")],
        [("open", "d", CREAT | RDWR, "EISDIR")],
        [("open", "d", RDONLY, None)],
        [("open", "f", RDONLY | os.O_DIRECTORY, "ENOTDIR")],
        [("open", "lf", RDONLY | os.O_NOFOLLOW, "ELOOP")],
        [("open", "f/", RDONLY, "ENOTDIR")],
        [("nobody", "open", "s", RDONLY, "EACCES")],
        [("nobody", "open", "f", RDONLY, None)],
        [("nobody", "open", "f", RDWR, "EACCES")],
        [("nobody", "open", "f", RDONLY | TRUNC, "EACCES"), ("size", "f", 5)],
        [("nobody", "open", "x", CREAT | RDWR, "EACCES")],
        [("nobody", "open", "t/x", CREAT | RDWR, None), ("owner", "t/x", (NOBODY, NOBODY))],
    ],
    "rename": [
        [("rename", "f", "g", None), ("read", "g", b"hello"), ("kind", "f", "ENOENT")],
        [("rename", "f", "e", None), ("read", "e", b"hello"), ("kind", "f", "ENOENT")],
        [("rename", "f", "f", None), ("read", "f", b"hello")],
        [("rename", "f", "F", None), ("read", "F", b"hello"), ("kind", "f", "ENOENT")],
        [("rename", "f", "n/f", None), ("read", "n/f", b"hello")],
        [("rename", "f", "ld/f", None), ("list", "d", ["f", "in"])],
        [("rename", "d", "x", None), ("list", "x", ["in"]), ("read", "x/in", b"in")],
        [("rename", "d", "n", None), ("list", "n", ["in"]), ("kind", "d", "ENOENT")],
        [("rename", "n", "m", None), ("list", "m", [])],
        [("rename", "f", "n", "EISDIR"), ("read", "f", b"hello")],
        [("rename", "n", "f", "ENOTDIR"), ("list", "n", [])],
        [("rename", "n", "d", "ENOTEMPTY"), ("list", "d", ["in"])],
        [("rename", "d", "d/x", "EINVAL")],
        [("rename", "d", "d/in/x", "ENOTDIR")],
        [("rename", "lf", "g", None), ("readlink", "g", "f"), ("kind", "lf", "ENOENT"), ("read", "f", b"hello")],
        [("rename", "ln", "lf", None), ("readlink", "lf", "nowhere"), ("read", "f", b"hello")],
        [("rename", "lf", "e", None), ("readlink", "e", "f")],
        [("rename", "e", "lf", None), ("kind", "lf", "-"), ("size", "lf", 0), ("read", "f", b"hello")],
        [("rename", "ld", "n", "EISDIR")],
        [("rename", "n", "ld", "ENOTDIR")],
        [("rename", "no", "g", "ENOENT")],
        [("rename", "f", "no/g", "ENOENT"), ("read", "f", b"hello")],
        [("rename", "f/x", "g", "ENOTDIR")],
        [("rename", "f", "e/g", "ENOTDIR")],
        [("rename", LONG, "g", "ENAMETOOLONG")],
        [("rename", "f", LONG, "ENAMETOOLONG"), ("read", "f", b"hello")],
        [("rename", "loop/x", "g", "ELOOP")],
        [("rename", "f", "loop/x", "ELOOP")],
        [("rename", "d/.", "g", "EBUSY")],
        [("rename with", "f", "e", 1, "EEXIST"), ("read", "f", b"hello"), ("read", "e", b"")],
        [("rename with", "f", "ln", 1, "EEXIST")],
        [("rename with", "f", "g", 1, None), ("read", "g", b"hello")],
        [("rename with", "f", "e", 2, None)],
        [("nobody", "rename", "f", "g", "EACCES")],
        [("nobody", "rename", "f", "t/g", "EACCES")],
        [("nobody", "rename", "t/f", "t/g", "EPERM"), ("read", "t/f", b"sticky")],
        [("nobody", "rename", "t/n", "t/m", "EPERM")],
    ],
    "rmdir": walks("rmdir", is_follow=False) + [
        [("rmdir", "n", None), ("kind", "n", "ENOENT")],
        [("rmdir", "d", "ENOTEMPTY"), ("list", "d", ["in"])],
        [("rmdir", "f", "ENOTDIR")],
        [("rmdir", "lf", "ENOTDIR")],
        [("rmdir", "ld", "ENOTDIR")],
        [("rmdir", "no", "ENOENT")],
        [("rmdir", "n/.", "EINVAL")],
        [("rmdir", "d/..", "ENOTEMPTY")],
        [("nobody", "rmdir", "n", "EACCES")],
        [("nobody", "rmdir", "t/n", "EPERM"), ("kind", "t/n", "d")],
    ],
    "symlink": [
        [("symlink", "f", "x", None), ("readlink", "x", "f"), ("read", "x", b"hello"), ("kind", "x", "l")],
        [("symlink", "nowhere", "d/x", None), ("list", "d", ["in", "x"]), ("read", "d/x", "ENOENT")],
        [("symlink", "../f", "d/x", None), ("read", "d/x", b"hello")],
        [("symlink", "f", "e", "EEXIST")],
        [("symlink", "f", "d", "EEXIST")],
        [("symlink", "f", "ln", "EEXIST"), ("readlink", "ln", "nowhere")],
        [("symlink", "", "x", "ENOENT")],
        [("symlink", "f", "no/x", "ENOENT")],
        [("symlink", "f", "e/x", "ENOTDIR")],
        [("symlink", "f", LONG, "ENAMETOOLONG")],
        [("symlink", "t" * 5000, "x", "ENAMETOOLONG")],
        [("symlink", "f", "loop/x", "ELOOP")],
        [("readlink", "f", "EINVAL")],
        [("nobody", "symlink", "f", "x", "EACCES")],
        [("nobody", "symlink", "f", "t/x", None)],
    ],
    "truncate": walks("truncate", 0) + [
        [("truncate", "f", 2, None), ("read", "f", b"he")],
        [("truncate", "f", 7, None), ("read", "f", b"hello\0\0")],
        [("truncate", "lf", 1, None), ("read", "f", b"h")],
        [("truncate", "f", -1, "EINVAL"), ("size", "f", 5)],
        [("truncate", "d", 0, "EISDIR")],
        [("later", "f", "truncate", "f", 3, True)],
        [("nobody", "truncate", "f", 0, "EACCES"), ("size", "f", 5)],
    ],
    "unlink": walks("unlink", is_follow=False) + [
        [("unlink", "f", None), ("kind", "f", "ENOENT")],
        [("unlink", "lf", None), ("kind", "lf", "ENOENT"), ("read", "f", b"hello")],
        [("unlink", "ln", None), ("kind", "ln", "ENOENT")],
        [("unlink", "loop", None)],
        [("unlink", "ld", None), ("list", "d", ["in"])],
        [("unlink", "d", "EISDIR")],
        [("unlink", "no", "ENOENT")],
        [("unlink", "f/", "ENOTDIR")],
        [("unlink open", "f", (b"hello", 0)), ("kind", "f", "ENOENT")],
        [("nobody", "unlink", "f", "EACCES")],
        [("nobody", "unlink", "t/f", "EPERM"), ("read", "t/f", b"sticky")],
    ],
    "utimensat": walks("utime") + [
        [("utime", "f", (5, 7), None), ("times", "f", (5, 7))],
        [("utime", "d", (5, 7), None), ("times", "d", (5, 7))],
        [("utime", "lf", (5, 7), None), ("times", "f", (5, 7))],
        [("utime", "ln", (5, 7), False, None), ("times", "ln", (5, 7))],
        [("later", "f", "utime", "f", (5, 7), True)],
        [("nobody", "utime", "f", (5, 7), "EPERM")],
        [("nobody", "utime", "f", "EACCES")],
    ],
}

# What can't be changed in a file system that is read only.
READ_ONLY = [
    ("chmod", "f", 0o600), ("chown", "f", 12, 34), ("link", "f", "g"), ("mkdir", "x"), ("mkfifo", "x"), ("open", "x", CREAT | RDWR), ("open", "f", RDWR), ("open", "f", RDONLY | TRUNC),
    ("rename", "f", "g"), ("rename", "n", "g"), ("rmdir", "n"), ("symlink", "f", "x"), ("truncate", "f", 0), ("unlink", "f"), ("utime", "f", (5, 7)),
]
# What needs a new file.
NEW = [("mkdir", "x"), ("open", "x", CREAT | RDWR), ("symlink", "f", "x")]

HAS_NO_FRAME = "no frame makes one"
IS_KEPT = "a set-user-ID or a set-group-ID bit isn't kept"
# How the mount answers otherwise, by the step; a row ends there.
DIFFERENT = {
    ("chmod", "f", 0o4755): ("EPERM", IS_KEPT),
    ("chmod", "d", 0o2755): ("EPERM", IS_KEPT),
    ("link", "f", "g"): ("EPERM", "no frame makes one, and a rename, which is a copy, would leave the other name behind"),
    ("mkfifo", "x"): ("EPERM", HAS_NO_FRAME),
    ("rename with", "f", "e", 2): ("EINVAL", "two files can't change their names by copies"),
    ("nobody", "symlink", "f", "t/x"): ("EPERM", "a server may follow a link by its own rights, so the mount's user alone makes them"),
}


def fill(folder):
    """Makes what is there, at the row's beginning."""
    for name, mode in FOLDERS.items():
        os.mkdir(os.path.join(folder, name))
        os.chmod(os.path.join(folder, name), mode)
    for name, data in FILES.items():
        put(os.path.join(folder, name), data)
    os.chmod(os.path.join(folder, "s"), 0o600)
    for name, target in LINKS.items():
        os.symlink(target, os.path.join(folder, name))


def in_child(folder, step):
    """What a call by another user comes to: `done` for None."""
    readable, writable = os.pipe()
    child = os.fork()
    if child == 0:
        os.setgroups([])
        os.setgid(NOBODY)
        os.setuid(NOBODY)
        got = outcome(ask, folder, step)
        os.write(writable, b"" if got is None else repr(got).encode())
        os._exit(0)
    os.close(writable)
    os.waitpid(child, 0)
    with open(readable, encoding="ascii") as said:
        text = said.read()
    return text.strip("'") or None


def step_done(folder, step):
    """What a step comes to."""
    return in_child(folder, step[1:]) if step[0] == "nobody" else outcome(ask, folder, step)


def is_left_out(row):
    """Whether it needs another user, and can't have one."""
    return os.getuid() != 0 and any(step[0] in ("nobody", "chown") or "chown" in step for step in row)


def try_row(tally, where, folder, row, different):
    """One row in a new folder."""
    os.mkdir(folder)
    fill(folder)
    for *step, wanted in row:
        is_other = tuple(step) in different
        wanted = different[tuple(step)][0] if is_other else wanted
        tally.note(f"{where}: {' '.join(str(word)[:20] for word in step)}", step_done(folder, step), wanted)
        if is_other:
            break
    shutil.rmtree(folder)


def try_rows(tally, where, place, different):
    """All of them."""
    for kind, rows in ROWS.items():
        for number, row in enumerate(rows):
            if not is_left_out(row):
                try_row(tally, where, os.path.join(place, f"{kind}{number}"), row, different)


def read_only(tally, where, folder):
    """Nothing is changed."""
    for step in READ_ONLY:
        tally.note(f"{where}, read only: {' '.join(str(word)[:20] for word in step)}", step_done(folder, step), "EROFS")
    tally.call(f"{where}, read only, read", b"hello", whole, os.path.join(folder, "f"))


def scarce(tally, where, folder):
    """There is no room for one more file."""
    made = 0
    while outcome(put, os.path.join(folder, f"more{made}"), b"") == 0:
        made += 1
    for step in NEW:
        tally.note(f"{where}, full: {' '.join(str(word)[:20] for word in step)}", step_done(folder, step), "ENOSPC")


def small(place):
    """A file system of its own, for so few files: whether there is one."""
    return subprocess.run(["mount", "-t", "tmpfs", "-o", "nr_inodes=60", "small", place], capture_output=True, check=False).returncode == 0


def plain(tally):
    """The machine's own answers, by which the rows are known to be right."""
    with tempfile.TemporaryDirectory(dir="/dev/shm" if os.path.isdir("/dev/shm") else None) as place:
        os.chmod(place, 0o755)
        try_rows(tally, "a plain folder", place, {})
        if not small(place):
            print("mount: left out: a file system of its own, which can't be had here")
            return
        fill(place)
        scarce(tally, "a plain folder", place)
        subprocess.run(["mount", "-o", "remount,ro", place], check=True)
        read_only(tally, "a plain folder", place)
        subprocess.run(["umount", place], check=True)


def above(tally, tools):
    """The mount's. Another user comes in where root lets him."""
    options = ("below={host}", "keep") + (("allow_other",) if os.getuid() == 0 else ())
    with Ground(tally, tools, *options, patience=900, alone=True) as ground:
        os.chmod(ground.room, 0o755)
        try_rows(tally, "the mount", ground.mount, DIFFERENT)
        fill(ground.mount)
        ground.unmount()
        ground.options += ("ro",)
        ground.start_mount()
        read_only(tally, "the mount", ground.mount)
    with tempfile.TemporaryDirectory() as place:
        if not small(place):
            return
        try:
            with Ground(tally, tools, "below={host}", place=place) as ground:
                scarce(tally, "the mount", ground.mount)
        finally:
            subprocess.run(["umount", "-l", place], check=True)


def run(tally, tools):
    """In a plain folder, and in the mount."""
    os.umask(0o022)
    plain(tally)
    above(tally, tools)
