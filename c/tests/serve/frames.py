#!/usr/bin/env python3
"""The same frames against two servers must bring the same bytes.

    frames.py [--count N] [--seed S] SERVER OTHER

Each server is a program that takes a folder and a socket, as fltd does, and has filters by the names `shift`, `hold` and `guard`. The last line is 'N passed, M failed'.
"""
import argparse
import os
import random
import shlex
import shutil
import socket
import struct
import subprocess
import sys
import tempfile
import time

TOP = os.path.dirname(os.path.dirname(os.path.dirname(os.path.dirname(os.path.abspath(__file__)))))
sys.path.insert(0, os.path.join(TOP, "clients"))
import kazdrin  # noqa: E402
from kazdrin import pack  # noqa: E402

PATIENCE = 10
SILENCE = 0.4


class Server:
    """One server over a folder of its own, and connections with it."""

    def __init__(self, command):
        self.place = tempfile.mkdtemp(prefix="kazdrin-", dir="/dev/shm" if os.path.isdir("/dev/shm") else None)
        self.folder = os.path.join(self.place, "files")
        self.path = os.path.join(self.place, "s")
        os.mkdir(self.folder)
        os.mkdir(os.path.join(self.folder, "deny"))
        os.mkfifo(os.path.join(self.folder, "pipe"))
        os.symlink("nowhere", os.path.join(self.folder, "link"))
        with open(os.path.join(self.folder, "there"), "wb") as file:
            file.write(b"0123456789")
        self.process = subprocess.Popen(shlex.split(command) + [self.folder, self.path], stdout=subprocess.PIPE, stderr=subprocess.STDOUT)
        assert self.process.stdout.readline() == b"ready\n"
        self.links = {}

    def link(self, name):
        """The connection of that name, which is made where it isn't there."""
        if name not in self.links:
            made = socket.socket(socket.AF_UNIX)
            made.settimeout(PATIENCE)
            made.connect(self.path)
            self.links[name] = made
        return self.links[name]

    def receive(self, name, wait):
        """The next frame with its length, as it comes; `silence` where none comes in time, `end` at the end."""
        try:
            link = self.link(name)
            link.settimeout(wait)
            head = self.some(link, 4)
            return head + self.some(link, struct.unpack(">I", head)[0]) if len(head) == 4 else b"end"
        except TimeoutError:
            return b"silence"
        except ConnectionError:
            return b"end"

    def some(self, link, count):
        """So many bytes, or fewer at the end."""
        data = b""
        while len(data) < count:
            piece = link.recv(count - len(data))
            if not piece:
                break
            data += piece
        return data

    def play(self, step):
        """One step of a script: what came."""
        what, name, *words = step
        if what == "send":
            try:
                self.link(name).sendall(words[0])
            except ConnectionError:
                pass
            return b""
        if what == "take":
            return self.receive(name, PATIENCE)
        if what == "silence":
            return self.receive(name, SILENCE)
        if what == "leave":
            self.links.pop(name).close()
            time.sleep(0.2)
            return b""
        if what == "pipe":
            os.remove(os.path.join(self.folder, name))
            os.mkfifo(os.path.join(self.folder, name))
            return b""
        if what == "remove":
            os.remove(os.path.join(self.folder, name))
            return b""
        if what == "half":
            self.link(name).shutdown(socket.SHUT_WR)
            return b""
        return self.look()

    def look(self):
        """What lies in the folder."""
        found = []
        for name in sorted(os.listdir(self.folder)):
            path = os.path.join(self.folder, name)
            data = open(path, "rb").read() if os.path.isfile(path) else b""
            found.append(name.encode() + b"=" + data)
        return b" ".join(found)

    def end(self):
        """The server's last word and its exit status, after its connections have ended."""
        for link in self.links.values():
            link.close()
        try:
            words, _ = self.process.communicate(timeout=PATIENCE)
            ended = words.split(b"\n")[-2], self.process.returncode
        except subprocess.TimeoutExpired:
            self.process.kill()
            self.process.communicate()
            ended = "it doesn't end"
        shutil.rmtree(self.place, ignore_errors=True)
        return ended


def frame(code, fields=b"", number=1):
    """A frame."""
    body = struct.pack(">BI", code, number) + fields
    return struct.pack(">I", len(body)) + body


def asks(name, *frames):
    """Each frame is sent by that connection, and its reply taken."""
    for each in frames:
        yield "send", name, each
        yield "take", name


def create(path, mode=2, volume=0):
    return frame(kazdrin.CREATE, pack("BB", volume, mode) + path)


def read(handle, offset, length):
    return frame(kazdrin.READ, pack("QQI", handle, offset, length))


def write(handle, offset, data):
    return frame(kazdrin.WRITE, pack("QQ", handle, offset) + data)


def on(code, handle):
    return frame(code, pack("Q", handle))


def set_size(handle, size):
    return frame(kazdrin.SET_SIZE, pack("QQ", handle, size))


def attach(filter, volume, name, altitude):
    return frame(kazdrin.ATTACH, pack("BBB", filter, volume, len(name)) + name + altitude)


LIST = frame(kazdrin.LIST, b"\0")
STOP = frame(kazdrin.STOP)


def files():
    """Files are made, read, written and deleted."""
    yield from asks("a", LIST, create(b"there", 0), read(0, 0, 100), read(0, 5, 2), read(0, 10, 1), read(0, 10, 0), read(0, 3, 0))
    yield from asks("a", create(b"no", 0), create(b"there", 1), create(b"new", 1), write(1, 0, b"hello"), write(1, 9, b"gap"), write(1, 3, b""), read(1, 0, 32_768))
    yield from asks("a", on(kazdrin.QUERY_SIZE, 1), set_size(1, 4), read(1, 0, 9), set_size(1, 6), read(1, 0, 9), on(kazdrin.FLUSH, 1))
    yield from asks("a", create(b"deny/in"), create(b"deny"), create(b"deny", 1), create(b"nowhere/x"), create(b"pipe"), create(b"pipe", 1), create(b"link"), create(b"link", 0), create(b"link", 1), create(b"there/x"))
    yield from asks("a", LIST, on(kazdrin.SET_DELETE, 1), create(b"new"), on(kazdrin.RESTORE, 1), LIST, on(kazdrin.SET_DELETE, 1), read(1, 0, 9), on(kazdrin.RESTORE, 9), on(kazdrin.CLOSE, 1), create(b"new", 0), LIST, on(kazdrin.CLOSE, 1))
    yield from asks("a", write(0, 1 << 40, b"x"), write(0, (1 << 40) - 1, b""), set_size(0, (1 << 40) + 1), read(0, 1 << 40, 1), read(0, (1 << 64) - 1, 1), write(0, (1 << 64) - 1, b"x"))
    yield from asks("a", write(0, 0, bytes(32_768)), read(0, 0, 32_768), read(0, 0, 32_769), write(0, 0, bytes(32_769)), set_size(0, 3))
    yield from asks("b", read(0, 0, 1), on(kazdrin.CLOSE, 0), create(b"there", 0), on(kazdrin.SET_DELETE, 3))
    yield "leave", "b"
    yield "look", ""
    yield from asks("a", LIST, create(b"a/../b"), create(b"/a"), create(b"a/"), create(b"."), create(b""), create(b"x" * 255), create(b"a b"), create(b"a\x7f"), create(b"a\n"), create(b"\xff"))


def odd():
    """Frames that are none, or that refuse themselves."""
    for code in (0, 10, 11, 15, 22, 99, 127, 130, 255):
        yield from asks("a", frame(code), frame(code, b"123", 7))
    for code in list(range(1, 10)) + list(range(16, 22)):
        yield from asks("a", frame(code, b"" if code != kazdrin.STOP else b"more"), frame(code, b"\0"), frame(code, bytes(17)), frame(code, bytes(20)), frame(code, bytes(21)), frame(code, b"\xff" * 30, 0xFFFF_FFFF))
        yield "leave", "a"
    yield from asks("a", frame(128, bytes(9)), frame(129, bytes(8)), create(b"a", 3), frame(kazdrin.LOAD, b"no such"), frame(kazdrin.LOAD, b"n" * 33), frame(kazdrin.LOAD, b"nobody"))
    yield from asks("a", attach(0, 0, b"", b"1"), attach(0, 0, b"n", b""), attach(0, 0, b"n", b"1.2.3"), attach(0, 0, b"n n", b"x"), attach(0, 0, b"n", b"1"), attach(0, 9, b"n", b"1"))
    yield from asks("a", frame(kazdrin.ATTACH, bytes([0, 0, 5]) + b"abcd"), frame(kazdrin.DETACH, pack("H", 0)), frame(kazdrin.DETACH, pack("H", 65_535)), frame(kazdrin.UNLOAD, b"\0"), frame(kazdrin.UNLOAD, b"\xff"))
    yield from asks("a", create(b"a", 2, 1), create(b"a", 2, 255), frame(kazdrin.LIST, b"\7"), frame(kazdrin.DISMOUNT, b"\1"))
    yield "send", "a", LIST + LIST[:3]
    yield "take", "a"
    yield "send", "a", LIST[3:] + frame(99)
    yield "take", "a"
    yield "take", "a"
    yield "send", "b", LIST + b"\xff\xff\xff\xff" + LIST
    for _ in range(3):
        yield "take", "b"
    yield "send", "c", b"\0\0\0\4" + bytes(4)
    yield "take", "c"
    yield "take", "c"
    yield "send", "d", LIST + LIST
    yield "half", "d"
    for _ in range(3):
        yield "take", "d"


def filters():
    """Filters come and go, and change bytes."""
    yield from asks("a", frame(kazdrin.LOAD, b"shift"), frame(kazdrin.LOAD, b"shift"), frame(kazdrin.LOAD, b"guard"), attach(0, 0, b"s", b"0100.50"), attach(0, 0, b"s", b"7"), attach(0, 0, b"t", b"100.5"))
    yield from asks("a", attach(1, 0, b"g", b"300"), attach(9, 0, b"t", b"5"), attach(0, 0, b"t", b"5"), create(b"x"), write(0, 0, b"hello"), read(0, 0, 9), create(b"deny/x"))
    yield "look", ""
    yield from asks("a", frame(kazdrin.DETACH, pack("H", 2)), read(0, 0, 9), frame(kazdrin.DETACH, pack("H", 2)), frame(kazdrin.DETACH, pack("H", 0)), read(0, 0, 9), frame(kazdrin.UNLOAD, b"\1"), create(b"deny/x"))
    yield from asks("a", frame(kazdrin.UNLOAD, b"\1"), frame(kazdrin.UNLOAD, b"\0"), frame(kazdrin.LOAD, b"shift"), attach(2, 0, b"s", b"1"), read(0, 0, 9))


def held():
    """A read is held: its connection waits, others don't; a flush lets it go."""
    yield from asks("a", frame(kazdrin.LOAD, b"hold"), attach(0, 0, b"h", b"9"), create(b"there", 0))
    yield from asks("b", create(b"there", 0))
    yield "send", "a", read(0, 2, 3) + frame(kazdrin.QUERY_SIZE, pack("Q", 0), 5)
    yield "silence", "a"
    yield from asks("b", LIST, write(1, 0, b"ab"), frame(kazdrin.DISMOUNT, b"\0"))
    yield from asks("c", LIST)
    yield "silence", "a"


def let_go():
    """The same with a flush, with a detach, and with a client that is gone."""
    yield from asks("a", frame(kazdrin.LOAD, b"hold"), attach(0, 0, b"h", b"9"), create(b"there", 0))
    yield from asks("b", create(b"there", 0))
    yield "send", "a", read(0, 2, 3) + frame(kazdrin.QUERY_SIZE, pack("Q", 0), 5)
    yield "silence", "a"
    yield from asks("b", LIST, write(1, 0, b"ab"), on(kazdrin.FLUSH, 1))
    yield "take", "a"
    yield "take", "a"
    yield "send", "a", read(0, 0, 3)
    yield "silence", "a"
    yield from asks("b", frame(kazdrin.DETACH, pack("H", 0)))
    yield "take", "a"
    yield from asks("b", attach(0, 0, b"h", b"9"))
    yield "send", "a", read(0, 0, 3)
    yield "silence", "a"
    yield "leave", "a"
    yield from asks("b", create(b"there"), on(kazdrin.FLUSH, 1), on(kazdrin.CLOSE, 1), LIST, frame(kazdrin.DETACH, pack("H", 1)))


def dismount():
    """The volume goes."""
    yield from asks("a", create(b"x"), create(b"y"), on(kazdrin.SET_DELETE, 1))
    yield from asks("b", create(b"x"), frame(kazdrin.DISMOUNT, b"\0"), frame(kazdrin.DISMOUNT, b"\0"), LIST, create(b"x"), read(2, 0, 1), read(0, 0, 1), on(kazdrin.CLOSE, 2), on(kazdrin.CLOSE, 2))
    yield from asks("a", read(0, 0, 1), on(kazdrin.QUERY_SIZE, 1), on(kazdrin.CLOSE, 1), on(kazdrin.CLOSE, 1), frame(kazdrin.LOAD, b"shift"), attach(0, 0, b"s", b"1"))
    yield "look", ""


def cases():
    """Names that differ in case alone are two files."""
    yield from asks("a", create(b"Makefile", 1), write(0, 0, b"one"), create(b"makefile", 1), write(1, 0, b"two"), read(0, 0, 9), read(1, 0, 9), create(b"MAKEFILE", 0), create(b"THERE", 0), LIST)
    yield from asks("a", on(kazdrin.SET_DELETE, 1), on(kazdrin.CLOSE, 1), read(0, 0, 9), on(kazdrin.CLOSE, 0), create(b"Makefile", 0), create(b"makefile", 0))
    yield "look", ""


def swapped():
    """A FIFO takes the place of an open file: nobody waits in it."""
    yield from asks("a", create(b"there", 0))
    yield "pipe", "there"
    yield from asks("a", read(0, 0, 3), write(0, 0, b"x"), on(kazdrin.QUERY_SIZE, 0), set_size(0, 3), on(kazdrin.FLUSH, 0), create(b"there"), on(kazdrin.SET_DELETE, 0), on(kazdrin.CLOSE, 0), on(kazdrin.CLOSE, 0), LIST)
    yield "look", ""


def deleted_below():
    """What is to be deleted is there no more, or is no file any more."""
    yield from asks("a", create(b"x"), create(b"y"), on(kazdrin.SET_DELETE, 0), on(kazdrin.SET_DELETE, 1))
    yield "remove", "x"
    yield "pipe", "y"
    yield from asks("a", on(kazdrin.CLOSE, 0), on(kazdrin.CLOSE, 1), on(kazdrin.CLOSE, 1), create(b"x"), create(b"y"), LIST)
    yield "look", ""


def stop():
    """A connection ends behind the reply to its Stop, whatever else came with it."""
    yield from asks("b", create(b"there", 0))
    yield "send", "a", STOP + LIST + LIST
    yield "take", "a"
    yield "take", "a"
    yield from asks("b", read(0, 0, 3), on(kazdrin.CLOSE, 0))


def crowd():
    """32 connections are served, and no more."""
    for number in range(32):
        yield from asks(f"n{number}", LIST)
    yield "take", "more"
    yield "leave", "n0"
    yield "leave", "more"
    yield from asks("another", LIST)
    yield "leave", "another"


def chance(seed, count):
    """Random frames by three connections."""
    own = random.Random(seed)
    for _ in range(count):
        handle = own.randrange(own.choice((2, 6, 30)))
        path = own.choice((b"a", b"b", b"c", b"there", b"deny/d", b"deny", b"link", b"pipe", b"no/e"))
        offset = own.choice((0, 1, 9, 4096, (1 << 40) - 4))
        yield from asks(own.choice("abc"), own.choice((
            create(path, own.randrange(3)), create(path, own.randrange(3)), read(handle, offset, own.randrange(40)), write(handle, own.randrange(50), own.randbytes(own.randrange(60))),
            on(kazdrin.QUERY_SIZE, handle), set_size(handle, own.randrange(90)), on(kazdrin.FLUSH, handle), on(kazdrin.SET_DELETE, handle), on(kazdrin.RESTORE, handle), on(kazdrin.CLOSE, handle), on(kazdrin.CLOSE, handle), LIST,
            frame(kazdrin.LOAD, own.choice((b"shift", b"guard"))), attach(own.randrange(2), 0, own.choice((b"p", b"q")), own.choice((b"1", b"2"))), frame(kazdrin.DETACH, pack("H", own.randrange(6))),
        )))
        if own.random() < 0.02:
            yield "leave", own.choice("abc")


def both(servers, name, script):
    """Plays a script on both: whether all that came is the same."""
    pair = [Server(command) for command in servers]
    is_same = True
    for step in script:
        if step[0] == "leave" and step[1] not in pair[0].links:
            continue
        got = [server.play(step) for server in pair]
        if got[0] != got[1] and is_same:
            is_same = False
            print(f"serve: {name}: {step[0]} {step[1]} {sent.hex()[:120] if (sent := last.get(step[1])) else ''}: {got[0].hex()[:120]} and {got[1].hex()[:120]}")
        if step[0] == "send":
            last[step[1]] = step[2]
    for server in pair if name != "stop" else []:
        server.play(("send", "stop", STOP))
        server.play(("take", "stop"))
    ends = [server.end() for server in pair]
    if ends[0] != ends[1]:
        print(f"serve: {name}: the end: {ends[0]} and {ends[1]}")
    return is_same and ends[0] == ends[1]


def descriptors(command, most):
    """With too few descriptors for all connections a server says so, and doesn't begin."""
    place = tempfile.mkdtemp(prefix="kazdrin-")
    shell = f"ulimit -n {most}; exec {command} {place} {place}/s"
    ended = subprocess.run(["bash", "-c", shell], capture_output=True, timeout=PATIENCE)
    shutil.rmtree(place, ignore_errors=True)
    is_refused = ended.returncode == 3 and b"ready" not in ended.stdout and (ended.stdout + ended.stderr).startswith(b"fault")
    if not is_refused:
        print(f"serve: {most} descriptors: {command}: {ended}")
    return is_refused


last = {}


def main():
    """The program: its exit status."""
    parser = argparse.ArgumentParser(description=__doc__)
    parser.add_argument("--count", type=int, default=300)
    parser.add_argument("--seed", type=int, default=random.randrange(1 << 32))
    parser.add_argument("servers", nargs=2)
    words = parser.parse_args()
    scripts = [(each.__name__, each()) for each in (files, odd, filters, held, let_go, dismount, cases, swapped, deleted_below, stop, crowd)]
    scripts += [(f"random frames, seed {words.seed + at}", chance(words.seed + at, words.count)) for at in range(3)]
    results = [both(words.servers, name, script) for name, script in scripts]
    results += [descriptors(command, most) for command in words.servers for most in (8, 24, 33, 37)]
    print(f"serve: {sum(results)} passed, {len(results) - sum(results)} failed")
    return 0 if all(results) else 1


if __name__ == "__main__":
    sys.exit(main())
