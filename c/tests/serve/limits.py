#!/usr/bin/env python3
"""What a server answers where the machine gives it too little: limits.py [--without ROW,..] SERVER

SERVER is a program that takes a folder and a socket, as fltd does, without sanitizers, and has a filter `hold`. Each function below is a row: the server goes on, and answers by a
number. The last line is 'N passed, M failed'."""
import argparse
import ctypes
import os
import resource
import shlex
import shutil
import signal
import struct
import subprocess
import sys
import tempfile
import threading
import time

TOP = os.path.dirname(os.path.dirname(os.path.dirname(os.path.dirname(os.path.abspath(__file__)))))
sys.path.insert(0, os.path.join(TOP, "clients"))
import kazdrin  # noqa: E402

PATIENCE = 20
OK, NO_MEMORY, DEVICE_FAULT, END_OF_FILE, TOO_MANY = 0, 1, 18, 31, 29
EXISTING, NEW, ALWAYS = kazdrin.EXISTING, kazdrin.NEW, kazdrin.ALWAYS


class Server:
    """One server over an empty folder. At its end it is stopped, and has to end well."""

    def __init__(self, command, **limits):
        self.place = tempfile.mkdtemp(prefix="kazdrin-", dir="/dev/shm" if os.path.isdir("/dev/shm") else None)
        self.folder = os.path.join(self.place, "files")
        self.path = os.path.join(self.place, "s")
        os.mkdir(self.folder)
        given = {getattr(resource, "RLIMIT_" + name): most for name, most in limits.items()}
        self.process = subprocess.Popen(
            shlex.split(command) + [self.folder, self.path], stdout=subprocess.PIPE, stderr=subprocess.STDOUT,
            preexec_fn=lambda: [resource.setrlimit(what, (most, resource.getrlimit(what)[1])) for what, most in given.items()])
        self.first = self.process.stdout.readline()

    def __enter__(self):
        expect("its first line", self.first, b"ready\n")
        return self

    def __exit__(self, kind, *_):
        try:
            if kind is None:
                with self.client() as client:
                    expect("stop", client.stop().status, OK)
                self.process.communicate(timeout=PATIENCE)
                expect("its exit status", self.process.returncode, 0)
        finally:
            self.end()

    def end(self):
        """Nothing is left of it."""
        if self.process.poll() is None:
            self.process.kill()
        self.process.communicate()
        shutil.rmtree(self.place, ignore_errors=True)

    def client(self, timeout=PATIENCE):
        """A connection with it."""
        return kazdrin.Client(self.path, timeout)

    def at(self, name):
        """A name in its folder."""
        return os.path.join(self.folder, name)

    def busy(self):
        """How many seconds of a processor it has taken."""
        with open(f"/proc/{self.process.pid}/stat", encoding="ascii") as file:
            fields = file.read().rpartition(")")[2].split()
        return (int(fields[11]) + int(fields[12])) / os.sysconf("SC_CLK_TCK")

    def resident(self):
        """How many kilobytes of memory it has."""
        with open(f"/proc/{self.process.pid}/statm", encoding="ascii") as file:
            return int(file.read().split()[1]) * resource.getpagesize() // 1024

    def limit(self, name, most):
        """Another limit, while it runs."""
        what = getattr(resource, "RLIMIT_" + name)
        resource.prlimit(self.process.pid, what, (most, resource.prlimit(self.process.pid, what)[1]))


def expect(what, got, wanted):
    """A value, or a condition of it."""
    if not (wanted(got) if callable(wanted) else got == wanted):
        raise AssertionError(f"{what}: {got!r:.200}" + ("" if callable(wanted) else f", and not {wanted!r:.200}"))


def none_left(command):
    """Descriptors are wanted while it runs: who comes then waits, no processor is taken for that, and is served once there are some."""
    with Server(command) as server:
        with server.client() as first:
            expect("list", first.list(0).status, OK)
            server.limit("NOFILE", len(os.listdir(f"/proc/{server.process.pid}/fd")))
            with server.client() as second:
                before = server.busy()
                second.send(kazdrin.LIST, b"\0")
                time.sleep(1)
                expect("seconds of a processor in one", server.busy() - before, lambda took: took < 0.3)
                server.limit("NOFILE", 256)
                expect("list by the second", second.take().status, OK)


def large_files(command):
    """A write past the largest file that its limits allow is refused, and it goes on: no signal ends it."""
    with Server(command, FSIZE=65536) as server, server.client() as client:
        handle = client.create("f", NEW).information
        expect("within", client.write(handle, 65530, b"abcdef")[:2], (OK, 6))
        expect("past it", client.write(handle, 65536, b"x").status, DEVICE_FAULT)
        expect("across it", client.write(handle, 65530, b"ABCDEFGH").status, DEVICE_FAULT)
        expect("a size past it", client.set_size(handle, 65537).status, DEVICE_FAULT)
        expect("reads go on", client.read(handle, 0, 3), (OK, 3, b"\0\0\0"))
        expect("writes go on", client.write(handle, 0, b"abc")[:2], (OK, 3))
        expect("it is", client.query_size(handle)[:2], (OK, 65536))


def memory(command):
    """Memory is wanted: requests are answered 1 until there is some again, no connection ends, and handles can be closed."""
    with Server(command) as server, server.client() as client:
        first = client.create("first", NEW).information
        expect("write", client.write(first, 0, b"first").status, OK)
        with open(f"/proc/{server.process.pid}/statm", encoding="ascii") as file:
            server.limit("AS", int(file.read().split()[0]) * resource.getpagesize())
        seen, handles = {}, []
        for number in range(4090):
            reply = client.create(f"f{number}", ALWAYS)
            seen[reply.status] = seen.get(reply.status, 0) + 1
            handles += [reply.information] if reply.status == OK else []
        expect("creates", seen, lambda counts: set(counts) <= {OK, NO_MEMORY} and counts.get(NO_MEMORY, 0) > 0)
        expect("a read", client.read(first, 0, 9)[:1], lambda got: got[0] in (OK, NO_MEMORY))
        expect("a list", client.list(0).status, lambda got: got in (OK, NO_MEMORY))
        expect("closes", {client.close(handle).status for handle in handles}, lambda got: got <= {OK, NO_MEMORY})
        server.limit("AS", resource.RLIM_INFINITY)
        expect("a read with memory again", client.read(first, 0, 9), (OK, 5, b"first"))
        expect("a create", client.create("last", NEW).status, OK)


def many_names(command):
    """A create and a close of a new name take about as long with 10,000 names as with 500."""
    with Server(command) as server, server.client() as client:
        makes(client, 0, 500)
        few = took(server, makes, client, 500, 1000)
        makes(client, 1000, 9500)
        many = took(server, makes, client, 9500, 10000)
        expect("seconds of a processor", (few, many), lambda pair: pair[1] < 1.6 * pair[0] + 0.05)


def many_deleted(command):
    """What is kept of names that are gone has a bound: 30,000 more take no memory to speak of."""
    with Server(command) as server, server.client() as client:
        comes_and_goes(client, 0, 15_000)
        before = server.resident()
        comes_and_goes(client, 15_000, 45_000)
        expect("more kilobytes", server.resident() - before, lambda more: more < 500)


def comes_and_goes(client, begin, end):
    """Files are made and deleted, a hundred at once."""
    for first in range(begin, end, 100):
        handles = asks(client, kazdrin.CREATE, [bytes([0, NEW]) + b"name%d" % number for number in range(first, first + 100)])
        for code in (kazdrin.SET_DELETE, kazdrin.CLOSE):
            asks(client, code, [kazdrin.pack("Q", handle) for handle in handles])


def terminated(command):
    """SIGTERM is a Stop: who is there stays until he goes, and what is marked goes with him. A second one doesn't wait for him."""
    for signals in (1, 2):
        server = Server(command)
        try:
            client = server.client()
            expect("a mark", client.set_delete(client.create("marked", NEW).information).status, OK)
            server.process.terminate()
            if signals == 1:
                expect("who is there", client.list(0).status, OK)
                client.hang_up()
            else:
                while server.process.poll() is None:
                    server.process.terminate()
            words, _ = server.process.communicate(timeout=PATIENCE)
            expect("its end", (server.process.returncode, words.split(b"\n")[-2]), (0, b"born 0 cleaned 0 leaks 0"))
            expect("what is left", os.listdir(server.folder), [])
        finally:
            server.end()


def counted(command):
    """SIGUSR1 has it say what it did, and what is there: also while a read is held."""
    with Server(command) as server, server.client() as client, server.client() as other:
        handle = client.create("f", NEW).information
        client.write(handle, 0, b"hello")
        expect("load, attach", (client.load("hold").status, client.attach(0, 0, "h", "9").status), (OK, OK))
        client.send(kazdrin.READ, kazdrin.pack("QQI", handle, 0, 5))
        expect("another client", other.list(0).status, OK)
        server.process.send_signal(signal.SIGUSR1)
        expect("the counts", server.process.stdout.readline(), b"requests 6 connections 2 held 1 handles 1 born 0 cleaned 0\n")
        expect("a detach", other.detach(0).status, OK)
        expect("the read", client.take(), (OK, 5, b"hello"))


def took(server, function, *words):
    """How many seconds of a processor the server takes for that."""
    before = server.busy()
    function(*words)
    return server.busy() - before


def makes(client, begin, end):
    """Files are made and closed, a hundred at once."""
    for first in range(begin, end, 100):
        handles = asks(client, kazdrin.CREATE, [bytes([0, NEW]) + b"n%d" % number for number in range(first, first + 100)])
        asks(client, kazdrin.CLOSE, [kazdrin.pack("Q", handle) for handle in handles])


def asks(client, code, all_fields):
    """Requests go out together: what their replies say beside the status, which is 0."""
    client.send_bytes(b"".join(struct.pack(">IBI", 5 + len(fields), code, 1) + fields for fields in all_fields))
    replies = [struct.unpack(">IBIBQ", client.receive(18)) for _ in all_fields]
    expect("statuses", {reply[3] for reply in replies}, {OK})
    return [reply[4] for reply in replies]


def pipes(command):
    """A FIFO takes a file's place again and again: no read of that waits in it."""
    with Server(command) as server, server.client() as client:
        with open(server.at("f"), "wb") as file:
            file.write(b"file")
        handle = client.create("f", EXISTING).information
        is_over = threading.Event()

        def exchange():
            while not is_over.is_set():
                os.mkfifo(server.at("new"))
                os.rename(server.at("new"), server.at("f"))
                with open(server.at("new"), "wb") as file:
                    file.write(b"file")
                os.rename(server.at("new"), server.at("f"))

        swapper = threading.Thread(target=exchange)
        swapper.start()
        try:
            end = time.monotonic() + 2
            while time.monotonic() < end:
                expect("a read", client.read(handle, 0, 9), lambda got: got in ((OK, 4, b"file"), (DEVICE_FAULT, 0, b""), (END_OF_FILE, 0, b"")))
                expect("a write", client.write(handle, 0, b"file").status, lambda got: got in (OK, DEVICE_FAULT))
        finally:
            is_over.set()
            swapper.join()


def links_out(command):
    """Links that lead out of the folder, also ones that take a folder's place again and again: nothing outside is read, changed, made or deleted."""
    with Server(command) as server, server.client() as client:
        outside = os.path.join(server.place, "outside")
        os.mkdir(outside)
        os.mkdir(server.at("d"))
        for path, data in ((os.path.join(outside, "x"), b"secret"), (server.at("d/x"), b"inside"), (server.at("x"), b"inside")):
            with open(path, "wb") as file:
                file.write(data)
        for name, target in (("file", outside + "/x"), ("near", "../outside/x"), ("all", outside), ("up", ".."), ("root", "/proc/self/root"), ("new", outside + "/new")):
            os.symlink(target, server.at(name))
        for path in ("file", "near", "all/x", "all/new", "up/outside/x", "root/etc/passwd", "new"):
            expect(f"{path}, existing", client.create(path, EXISTING).status, DEVICE_FAULT)
            expect(f"{path}, always", client.create(path, ALWAYS).status, lambda status: status != OK)
        os.symlink("d/../x", server.at("within"))
        within = client.create("within", EXISTING)
        expect("a link within", client.read(within.information, 0, 9), (OK, 6, b"inside"))
        exchanged(server, client, outside)
        expect("outside", (os.listdir(outside), open(os.path.join(outside, "x"), "rb").read()), (["x"], b"secret"))


def exchanged(server, client, outside):
    """The folder d and a link out have each other's names in turn, while it is read and written below."""
    os.symlink(outside, server.at("l"))
    is_over = threading.Event()
    library = ctypes.CDLL(None)

    def exchange():
        while not is_over.is_set():
            library.renameat2(-100, server.at("d").encode(), -100, server.at("l").encode(), 2)

    swapper = threading.Thread(target=exchange)
    swapper.start()
    try:
        end = time.monotonic() + 2
        while time.monotonic() < end:
            opened = client.create("d/x", ALWAYS)
            if opened.status == OK:
                expect("a read", client.read(opened.information, 0, 9), lambda got: got.status != OK or got.data == b"inside")
                client.write(opened.information, 0, b"inside")
                client.close(opened.information)
    finally:
        is_over.set()
        swapper.join()


def foreign_names(command):
    """A name that isn't UTF-8 isn't listed, and the others are."""
    with Server(command) as server, server.client() as client:
        for name in (b"a", b"\xff\xfe", "\u00e9".encode(), b"z"):
            open(os.path.join(os.fsencode(server.folder), name), "wb").close()
        reply = client.list(0)
        expect("list", (reply.status, sorted(reply.data.split(b"\n"))), (OK, [b"", b"a", b"z", "\u00e9".encode()]))


def abandoned(command):
    """Clients leave 240 reads that a filter holds: others keep what they have, and after a flush, and after a detach, all is as before."""
    with Server(command) as server, server.client() as client:
        handle = client.create("f", NEW).information
        client.write(handle, 0, b"hello")
        expect("load, attach", (client.load("hold").status, client.attach(0, 0, "h", "9").status), (OK, OK))
        for _ in range(10):
            leave_reads(server, 24)
        expect("a flush", client.flush(handle).status, OK)
        expect("a write behind it", once_there_is_room(lambda: client.write(handle, 0, b"HELLO"))[:2], (OK, 5))
        for _ in range(10):
            leave_reads(server, 24)
        expect("a detach", client.detach(0).status, OK)
        expect("a create", once_there_is_room(lambda: client.create("new", NEW)).status, OK)
        expect("a read", client.read(handle, 0, 9), (OK, 5, b"HELLO"))


def once_there_is_room(ask):
    """A reply, asked for anew as long as what was let go is still on its way."""
    end = time.monotonic() + PATIENCE
    reply = ask()
    while reply.status == TOO_MANY and time.monotonic() < end:
        reply = ask()
    return reply


def leave_reads(server, count):
    """So many clients have a read held, as far as they are let, and go."""
    before = sockets(server)
    clients = [server.client() for _ in range(count)]
    for client in clients:
        opened = client.create("f", EXISTING)
        expect("a create beside held reads", opened.status, lambda status: status in (OK, TOO_MANY))
        if opened.status == OK:
            client.send(kazdrin.READ, kazdrin.pack("QQI", opened.information, 0, 5))
    time.sleep(0.1)
    for client in clients:
        client.hang_up()
    end = time.monotonic() + PATIENCE
    while time.monotonic() < end and sockets(server) > before:
        time.sleep(0.05)


def sockets(server):
    """How many it has."""
    folder = f"/proc/{server.process.pid}/fd"
    count = 0
    for name in os.listdir(folder):
        try:
            count += os.readlink(os.path.join(folder, name)).startswith("socket")
        except FileNotFoundError:  # it was closed meanwhile
            pass
    return count


ROWS = (none_left, large_files, memory, many_names, many_deleted, terminated, counted, pipes, links_out, foreign_names, abandoned)


def tried(row, command):
    """Whether it is so."""
    try:
        row(command)
        return True
    except Exception as error:  # pylint: disable=broad-except
        print(f"serve: {row.__name__}: {command}: {type(error).__name__}: {error}", flush=True)
        return False


def main():
    """The program: its exit status."""
    parser = argparse.ArgumentParser(description=__doc__)
    parser.add_argument("--without", default="")
    parser.add_argument("--only", default="")
    parser.add_argument("server")
    words = parser.parse_args()
    left_out, named = words.without.split(","), words.only.split(",") if words.only else []
    results = [tried(row, words.server) for row in ROWS if row.__name__ not in left_out and (not named or row.__name__ in named)]
    print(f"serve: {sum(results)} passed, {len(results) - sum(results)} failed")
    return 0 if all(results) else 1


if __name__ == "__main__":
    sys.exit(main())
