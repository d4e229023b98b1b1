#!/usr/bin/env python3
"""What a server answers to the frames Rename and Look: rows.py SERVER

SERVER is a program that takes a folder and a socket, as fltd does, and has filters by the names `shift`, `hold`, `guard` and `names` (c/tests/serve/drivers). A row is a list of steps over
a folder with FILES: a connection, a call of the client, its words, and what its reply says, as far as that is given: a status, the information, the bytes. `$x` keeps the
information as x, and `x` in a word's place is that. `below` looks at the folder itself, and `looked` compares a Look with it. The last line is 'N passed, M failed'."""
import os
import shlex
import shutil
import struct
import subprocess
import sys
import tempfile

TOP = os.path.dirname(os.path.dirname(os.path.dirname(os.path.dirname(os.path.abspath(__file__)))))
sys.path.insert(0, os.path.join(TOP, "clients"))
import kazdrin  # noqa: E402

OK, NO_HANDLE, BAD_PATH, DENIED, FAULT, NOT_FOUND, EXISTS, END, BAD_REQUEST, GOING = 0, 14, 15, 17, 18, 19, 20, 31, 32, 33
PATIENCE = 20
# Folders in folders.
DEEP = "/".join(["d" * 200] * 4 + ["d" * 100])
FILES = {"f": b"from", "t": b"to there", "d/in": b"in"}


def opened(name, path="f", who="a"):
    """A step that opens what is there."""
    return who, "create", (path, kazdrin.EXISTING), (OK, "$" + name)


def bytes_of(handle, data, who="a"):
    """A step that reads all of a file."""
    return who, "read", (handle, 0, 99), (OK, len(data), data) if data else (END,)


def below(**files):
    """A step that looks at the folder: these files, and no others."""
    return "below", {name.replace("__", "/"): data for name, data in files.items()}


def attached(name):
    """Steps that attach a filter."""
    return [("a", "load", (name,), (OK, "$filter")), ("a", "attach", ("filter", 0, name, "100"), (OK,))]


def raw(fields):
    """A step that sends a frame of these bytes."""
    return "a", "ask", (kazdrin.RENAME, fields), (BAD_REQUEST,)


def looked(name):
    """A step that looks at what is there."""
    return "looked", name


ROWS = {
    "a look": [looked("f"), looked("t"), looked("d/in"), looked("d"), ("a", "look", ("no",), (NOT_FOUND, 0)), ("a", "look", ("d/no",), (NOT_FOUND, 0)), ("a", "look", ("f/x",), (NOT_FOUND, 0)), ("a", "look", ("pipe",), (FAULT, 0)),
               ("a", "look", ("out",), (FAULT, 0)), ("a", "look", ("a//b",), (BAD_PATH, 0)), ("a", "look", ("",), (BAD_PATH, 0)), ("a", "look", ("f", 9), (7, 0)), ("a", "ask", (kazdrin.LOOK,), (BAD_REQUEST, 0)),
               opened("h"), ("a", "write", ("h", 9, b"!"), (OK, 1)), looked("f"), ("a", "look", ("f",), (OK, 10)), ("a", "set_delete", ("h",), (OK,)), ("b", "look", ("f",), (16, 0)), ("a", "restore", ("h",), (OK,)), ("b", "look", ("f",), (OK, 10))],
    "a look leaves no handle": [("a", "look", ("f",), (OK, 4))] * 4200 + [opened("h"), bytes_of("h", b"from"), ("a", "rename", ("h", "x"), (OK,))],
    "filters hear of a look": attached("guard") + [("a", "look", ("deny/x",), (DENIED, 0)), ("a", "look", ("d/in",), (OK, 2))],
    "names beyond ASCII": [("a", "create", (b"gr\xc3\xb6\xc3\x9fe.txt", 1), (OK, "$h")), ("a", "write", ("h", 0, b"x"), (OK, 1)), ("a", "rename", ("h", "d/\u65e5\u672c"), (OK,)), looked("d/\u65e5\u672c"),
                           ("a", "rename", ("h", "\U0001f600"), (OK,)), looked("\U0001f600"), ("a", "list", (), lambda reply: sorted(reply.data.split(b"\n")) == [b"", b"f", b"out", b"t", b"\xf0\x9f\x98\x80"]),
                           below(f=b"from", t=b"to there", d__in=b"in", **{"\U0001f600": b"x"}), ("a", "create", (b"\xff",), (BAD_PATH,)), ("a", "create", (b"\xc0\xaf",), (BAD_PATH,)), ("a", "create", (b"\xed\xa0\x80",), (BAD_PATH,)),
                           ("a", "create", (b"\xc3",), (BAD_PATH,)), ("a", "create", (b"\xe2\x82/x",), (BAD_PATH,)), ("a", "rename", ("h", b"\xff"), (BAD_PATH,))],
    "long paths": [("a", "create", (DEEP + "/" + "x" * (1023 - len(DEEP)), 1), (OK, "$h")), ("a", "write", ("h", 0, b"x"), (OK, 1)), looked(DEEP + "/" + "x" * (1023 - len(DEEP))), ("a", "create", (DEEP + "/" + "x" * (1024 - len(DEEP)), 1), (BAD_PATH,)),
                   ("a", "rename", ("h", "near"), (OK,)), ("a", "rename", ("h", DEEP + "/near"), (OK,)), looked(DEEP + "/near"), ("a", "create", ("x" * 255, 1), (OK, "$n")), ("a", "rename", ("n", "x" * 256), lambda reply: reply.status in (BAD_PATH, FAULT)),
                   ("a", "set_delete", ("h",), (OK,)), ("a", "close", ("h",), (OK,)), ("a", "look", (DEEP + "/near",), (NOT_FOUND,))],
    "a look is held": [opened("h"), ("a", "rename", ("h", "late"), (OK,))] + attached("late") + [("b", "send", (kazdrin.LOOK, b"\0late"), None), ("a", "list", (), (OK,)), ("a", "flush", ("h",), (OK,)),
                       ("a", "list", (), (OK,)), ("a", "flush", ("h",), (OK,)), ("b", "take", (), (OK, 4)), ("b", "list", (), (OK,))],
    "who waits for a look goes": [opened("h"), ("a", "rename", ("h", "late"), (OK,))] + attached("late") + [("b", "send", (kazdrin.LOOK, b"\0late"), None), ("a", "list", (), (OK,)), ("b", "hang_up", (), None), ("a", "list", (), (OK,)),
                                                                                                   ("a", "flush", ("h",), (OK,)), ("a", "rename", ("h", "t"), (OK,)), below(t=b"from", d__in=b"in")],
    "a volume that goes isn't looked at": [("b", "dismount", (), (OK,)), ("a", "look", ("f",), (GOING, 0))],
    "a new name": [opened("h"), ("a", "rename", ("h", "new"), (OK, 0, b"")), bytes_of("h", b"from"), ("a", "write", ("h", 0, b"FROM"), (OK, 4)), below(new=b"FROM", t=b"to there", d__in=b"in"),
                   ("a", "create", ("f", 0), (NOT_FOUND,)), ("a", "close", ("h",), (OK,)), opened("n", "new"), bytes_of("n", b"FROM")],
    "twice": [opened("h"), ("a", "rename", ("h", "new"), (OK,)), ("a", "rename", ("h", "d/newer"), (OK,)), ("a", "rename", ("h", "f"), (OK,)), below(f=b"from", t=b"to there", d__in=b"in")],
    "its own name": [opened("h"), ("a", "rename", ("h", "f"), (OK,)), ("a", "rename", ("h", "f", False), (OK,)), below(f=b"from", t=b"to there", d__in=b"in")],
    "a name in case alone": [opened("h"), ("a", "rename", ("h", "F", False), (OK,)), below(F=b"from", t=b"to there", d__in=b"in")],
    "over another": [opened("h"), ("a", "rename", ("h", "t"), (OK,)), below(t=b"from", d__in=b"in"), bytes_of("h", b"from"), ("a", "query_size", ("h",), (OK, 4))],
    "not over another": [opened("h"), ("a", "rename", ("h", "t", False), (EXISTS, 0)), below(f=b"from", t=b"to there", d__in=b"in"), bytes_of("h", b"from")],
    "over an open one": [opened("h"), opened("o", "t", "b"), ("a", "rename", ("h", "t"), (OK,)), below(t=b"from", d__in=b"in"), bytes_of("o", b"to there", "b"),
                         ("b", "write", ("o", 0, b"TO"), (OK, 2)), ("b", "set_size", ("o", 4), (OK,)), ("b", "query_size", ("o",), (OK, 4)), ("b", "flush", ("o",), (OK,)), bytes_of("o", b"TO t", "b"),
                         opened("n", "t", "b"), bytes_of("n", b"from", "b"), ("b", "close", ("o",), (OK,)), below(t=b"from", d__in=b"in"), bytes_of("n", b"from", "b")],
    "over an open one, again and again": [step for _ in range(9) for step in (opened("o", "t", "b"), ("a", "create", ("g",), (OK, "$fresh")), ("a", "write", ("fresh", 0, b"next"), (OK, 4)),
                                                                              ("a", "rename", ("fresh", "t"), (OK,)), ("a", "close", ("fresh",), (OK,)))] + [bytes_of("o", b"next", "b"), below(f=b"from", t=b"next", d__in=b"in")],
    "an open one whose client goes": [opened("h"), opened("o", "t", "b"), ("a", "rename", ("h", "t"), (OK,)), ("b", "hang_up", (), None), ("a", "set_delete", ("h",), (OK,)), ("a", "close", ("h",), (OK,)), below(d__in=b"in")],
    "by two handles": [opened("h"), opened("o", "f", "b"), ("a", "rename", ("h", "new"), (OK,)), ("b", "write", ("o", 4, b"!"), (OK, 1)), bytes_of("h", b"from!"), below(new=b"from!", t=b"to there", d__in=b"in")],
    "a mark goes along": [opened("h"), ("a", "rename", ("h", "new"), (OK,)), ("a", "set_delete", ("h",), (OK,)), ("a", "close", ("h",), (OK,)), below(t=b"to there", d__in=b"in")],
    "refused": [opened("h"), ("a", "rename", (99, "x"), (NO_HANDLE,)), ("b", "rename", ("h", "x"), (NO_HANDLE,)), ("a", "rename", ("h", "no/x"), (NOT_FOUND,)), ("a", "rename", ("h", "t/x"), (NOT_FOUND,)),
                ("a", "rename", ("h", "a//b"), (BAD_PATH,)), ("a", "rename", ("h", ""), (BAD_PATH,)), ("a", "rename", ("h", "../x"), (BAD_PATH,)), ("a", "rename", ("h", "d"), (DENIED,)), ("a", "rename", ("h", "d", False), (EXISTS,)),
                raw(b""), raw(bytes(8)), raw(bytes(8) + b"\2x"), raw(bytes(8) + b"\xffx"), below(f=b"from", t=b"to there", d__in=b"in"), bytes_of("h", b"from")],
    "what is no file isn't replaced": [opened("h"), ("a", "rename", ("h", "pipe"), lambda reply: reply.status in (FAULT, EXISTS)), ("a", "rename", ("h", "pipe", False), (EXISTS,)),
                                       ("a", "rename", ("h", "out"), lambda reply: reply.status in (FAULT, EXISTS)), below(f=b"from", t=b"to there", d__in=b"in")],
    "a volume that goes": [opened("h"), ("b", "dismount", (), (OK,)), ("a", "rename", ("h", "x"), (GOING,)), below(f=b"from", t=b"to there", d__in=b"in")],
    "through a filter of bytes": attached("shift") + [opened("h"), ("a", "write", ("h", 0, b"abc"), (OK, 3)), ("a", "rename", ("h", "t"), (OK,)), ("a", "read", ("h", 0, 3), (OK, 3, b"abc")), below(t=b"bcdm", d__in=b"in")],
    "a filter of renames hears it": attached("names") + [opened("h"), ("a", "rename", ("h", "now"), (DENIED,)), ("a", "rename", ("h", "d/no"), (DENIED,)), ("a", "rename", ("h", "t"), (OK,)), below(t=b"from", d__in=b"in")],
    "a filter of creates hears of its folder": attached("guard") + [opened("h"), ("a", "rename", ("h", "deny/x"), (DENIED,)), ("a", "rename", ("h", "d/x"), (OK,)), below(d__x=b"from", t=b"to there", d__in=b"in")],
    "while a read is held": attached("hold") + [opened("h"), opened("o", "f", "b"), ("b", "send", (kazdrin.READ, kazdrin.pack("QQI", 1, 0, 9)), None), ("a", "list", (), (OK,)), ("a", "rename", ("h", "t"), (OK,)),
                                                ("a", "flush", ("h",), (OK,)), ("b", "take", (), (OK, 4, b"from")), below(t=b"from", d__in=b"in")],
}


class Server:
    """One server over a folder with the files, and connections with it."""

    def __init__(self, command):
        self.place = tempfile.mkdtemp(prefix="kazdrin-", dir="/dev/shm" if os.path.isdir("/dev/shm") else None)
        self.folder, path = os.path.join(self.place, "files"), os.path.join(self.place, "s")
        os.makedirs(os.path.join(self.folder, "d"))
        os.mkdir(os.path.join(self.folder, "deny"))
        os.makedirs(os.path.join(self.folder, DEEP))
        os.mkfifo(os.path.join(self.folder, "pipe"))
        os.symlink("/etc/passwd", os.path.join(self.folder, "out"))
        for name, data in FILES.items():
            with open(os.path.join(self.folder, name), "wb") as file:
                file.write(data)
        self.process = subprocess.Popen(shlex.split(command) + [self.folder, path], stdout=subprocess.PIPE, stderr=subprocess.STDOUT)
        assert self.process.stdout.readline() == b"ready\n"
        self.clients = {name: kazdrin.Client(path, PATIENCE) for name in "ab"}
        self.kept = {}

    def files(self):
        """What lies in the folder."""
        found = {}
        for where, _, names in os.walk(self.folder):
            for name in names:
                path = os.path.join(where, name)
                if os.path.isfile(path) and not os.path.islink(path):
                    with open(path, "rb") as file:
                        found[os.path.relpath(path, self.folder)] = file.read()
        return found

    def play(self, who, call, words, wanted):
        """One step: what is wrong with its reply, or nothing."""
        words = [self.kept.get(word, word) if isinstance(word, str) else word for word in words]
        reply = getattr(self.clients[who], call)(*words)
        if callable(wanted):
            return "" if wanted(reply) else repr(reply)
        for got, want in zip(reply or (), wanted or ()):
            if isinstance(want, str):
                self.kept[want[1:]] = got
            elif got != want:
                return f"{reply!r:.200}, and not {wanted!r:.200}"
        return ""

    def looked(self, name):
        """What is wrong with a look at what is there, or nothing."""
        is_there = os.stat(os.path.join(self.folder, name))
        is_folder = os.path.isdir(os.path.join(self.folder, name))
        reply = self.clients["a"].look(name)
        wanted = (OK, 0 if is_folder else is_there.st_size, struct.pack(">BHQQ", 2 if is_folder else 1, is_there.st_mode & 0o7777, is_there.st_atime_ns, is_there.st_mtime_ns))
        return "" if reply == wanted else f"{reply}, and not {wanted}"

    def end(self):
        """Its exit status, and its last line."""
        for client in self.clients.values():
            if client.socket:
                client.stop()
            client.hang_up()
        try:
            words, _ = self.process.communicate(timeout=PATIENCE)
        finally:
            self.process.kill()
            shutil.rmtree(self.place, ignore_errors=True)
        return self.process.returncode, b"leaks 0" in words


def tried(command, name, steps):
    """Whether a row is so."""
    server, wrong = Server(command), ""
    for step in steps:
        if step[0] == "below":
            wrong = "" if server.files() == step[1] else f"{server.files()}, and not {step[1]}"
        elif step[0] == "looked":
            wrong = server.looked(step[1])
        else:
            wrong = server.play(*step)
        if wrong:
            print(f"serve: rename: {name}: {step[:3]!r:.100}: {wrong}", flush=True)
            break
    ended = server.end()
    if not wrong and ended != (0, True):
        wrong = f"its end: {ended}"
        print(f"serve: rename: {name}: {wrong}", flush=True)
    return not wrong


def main(words):
    """The program: its exit status."""
    if len(words) != 2:
        print(__doc__.strip())
        return 2
    results = [tried(words[1], name, steps) for name, steps in ROWS.items()]
    print(f"serve: {sum(results)} passed, {len(results) - sum(results)} failed")
    return 0 if all(results) else 1


if __name__ == "__main__":
    sys.exit(main(sys.argv))
