"""Ends: of an instance, of the volume, of the server, of the mount."""
import os
import subprocess
import tempfile
import threading
import time

from ground import Ground, put, shifted, until, wait_for_reads, whole

SOON = 10
WRITERS = 6


def detach(tally, tools):
    """An open file meets the filters that are attached at each call."""
    with Ground(tally, tools) as ground:
        instance = ground.attach(shift=100)["shift"]
        put(ground.at("x"), b"hello")
        file = os.open(ground.at("x"), os.O_RDWR)
        tally.call("with the filter", b"hello", os.pread, file, 9, 0)
        tally.note("detach in use", ground.ask("detach", instance)[0], 0)
        tally.call("without it", shifted(b"hello"), os.pread, file, 9, 0)
        tally.call("a write without it", 1, os.pwrite, file, b"H", 0)
        tally.note("attach again", ground.ask("attach", 0, 0, "again", "100")[0], 0)
        tally.call("with it again", b"Gello", os.pread, file, 9, 0)
        os.truncate(ground.below("x"), 2)
        tally.call("cut behind the mount", (2, b"Ge"), lambda: (os.fstat(file).st_size, os.pread(file, 9, 0)))
        os.unlink(ground.below("x"))
        tally.call("deleted behind the mount", "ENOENT", os.stat, ground.at("x"))
        os.close(file)


def detach_cached(tally, tools):
    """Pages that the kernel keeps have the old filters' bytes until the file is opened anew."""
    with Ground(tally, tools, "cached") as ground:
        instance = ground.attach(shift=100)["shift"]
        put(ground.at("x"), b"hello")
        file = os.open(ground.at("x"), os.O_RDWR)
        tally.call("cached, with the filter", b"hello", os.pread, file, 9, 0)
        tally.note("cached, detach in use", ground.ask("detach", instance)[0], 0)
        tally.call("cached, the old bytes", b"hello", os.pread, file, 9, 0)
        tally.call("cached, opened anew", shifted(b"hello"), whole, ground.at("x"))
        tally.call("cached, the open file then", shifted(b"hello"), os.pread, file, 9, 0)
        os.close(file)


def stale(tally, tools):
    """Attributes that the kernel keeps are old so long; an open of a name that is gone looks again."""
    with Ground(tally, tools, "attr=2") as ground:
        put(ground.at("x"), b"hello")
        tally.call("kept, the size", 5, lambda: os.stat(ground.at("x")).st_size)
        os.truncate(ground.below("x"), 2)
        tally.call("kept, the old size", 5, lambda: os.stat(ground.at("x")).st_size)
        tally.note("kept, the new size", until(lambda: os.stat(ground.at("x")).st_size == 2), True)
        os.unlink(ground.below("x"))
        tally.call("kept, an open of a name that is gone", "ENOENT", os.open, ground.at("x"), os.O_RDWR)
        put(ground.at("x"), b"again")
        os.stat(ground.at("x"))
        os.unlink(ground.below("x"))
        tally.call("kept, it is made anew", 3, put, ground.at("x"), b"new")
        tally.call("kept, and has its bytes", b"new", whole, ground.below("x"))


def churn(tally, tools):
    """Instances come and go under a program that reads."""
    with Ground(tally, tools) as ground:
        ground.ask("load", "meter")
        put(ground.at("x"), b"hello")
        over = threading.Event()

        def come_and_go():
            while not over.is_set():
                status, instance = ground.ask("attach", 0, 0, "m", "200")
                while status == 0 and ground.ask("detach", instance)[0] == 34:
                    pass

        thread = threading.Thread(target=come_and_go)
        thread.start()
        got = {whole(ground.at("x")) for _ in range(500)}
        over.set()
        thread.join()
        tally.note("reads under attach and detach", got, {b"hello"})


def dismount(tally, tools):
    """A volume that is gone is ENODEV, also for open files."""
    with Ground(tally, tools) as ground:
        put(ground.at("x"), b"hello")
        file = os.open(ground.at("x"), os.O_RDWR)
        tally.note("dismount", ground.ask("dismount", 0)[0], 0)
        for name, call in after(ground, file).items():
            tally.call(f"{name} after the dismount", lambda got: got in ("ENODEV", "EBADF"), call)
        tally.call("close after the dismount", None, os.close, file)


def after(ground, file):
    """Calls that need the server."""
    return {
        "read": lambda: os.pread(file, 9, 0),
        "write": lambda: os.pwrite(file, b"q", 0),
        "size": lambda: os.fstat(file).st_size,
        "sync": lambda: os.fsync(file),
        "open": lambda: os.open(ground.at("x"), os.O_RDWR),
        "create": lambda: os.open(ground.at("y"), os.O_RDWR | os.O_CREAT),
        "look": lambda: os.stat(ground.at("x")),
        "list": lambda: os.listdir(ground.mount),
        "unlink": lambda: os.unlink(ground.at("x")),
    }


def write_on(path, ends, ready):
    """Writes until it is refused, once all writers have their files."""
    file = os.open(path, os.O_RDWR | os.O_CREAT)
    ready.wait()
    try:
        while True:
            os.pwrite(file, bytes(4096), 0)
    except OSError as error:
        ends.append(error.strerror)
    os.close(file)


def dismount_writers(tally, tools):
    """Writers are refused once the volume is gone."""
    with Ground(tally, tools) as ground:
        ends = []
        ready = threading.Barrier(WRITERS + 1)
        writers = [threading.Thread(target=write_on, args=(ground.at(f"w{number}"), ends, ready)) for number in range(WRITERS)]
        for writer in writers:
            writer.start()
        ready.wait(10 * SOON)
        time.sleep(0.3)
        tally.note("dismount under writers", until(lambda: ground.ask("dismount", 0)[0] == 0), True)
        for writer in writers:
            writer.join(SOON)
        tally.note("what they were told", ends, ["No such device"] * WRITERS)


def stop(tally, tools):
    """A server that is stopped serves the mount on, and ends with it."""
    with Ground(tally, tools) as ground:
        put(ground.at("x"), b"hello")
        tally.note("stop", ground.ask("stop")[0], 0)
        tally.call("read after the stop", b"hello", whole, ground.at("x"))
        tally.call("write after the stop", 4, put, ground.at("y"), b"more")
        tally.note("the server is there", ground.server.poll(), None)
        ground.unmount()
        tally.note("it ended", until(lambda: ground.server.poll() == 0), True)
        words = whole(os.path.join(ground.room, "server.out")).decode()
        tally.note("its last line", words.split("\n")[-2].endswith("leaks 0"), True)


def death(tally, tools):
    """A server that was killed is an error at once. One that comes after it has no filters: it isn't taken for the same."""
    with Ground(tally, tools) as ground:
        ground.attach(shift=100, hold=400)
        put(ground.at("x"), b"hello")
        file = os.open(ground.at("x"), os.O_RDWR)
        held = subprocess.Popen(["head", "-c", "5", ground.at("x")], stdout=subprocess.PIPE, stderr=subprocess.PIPE)
        wait_for_reads(ground.at("x"), f"/proc/{held.pid}")
        ground.kill_server()
        tally.note("the held reader ends", b"Input/output error" in held.communicate(timeout=SOON)[1], True)
        gone(tally, ground, file, "after a kill")
        ground.start_server()
        gone(tally, ground, file, "beside a new server")
        tally.note("what lies below", whole(ground.below("x")), shifted(b"hello"))
        tally.call("close", None, os.close, file)


def gone(tally, ground, file, when):
    """No call hangs, and none succeeds."""
    begun = time.monotonic()
    for name, call in after(ground, file).items():
        wanted = "EIO" if name in ("read", "write", "size", "sync") else "ENOTCONN"
        tally.call(f"{name} {when}", lambda got, wanted=wanted: got == wanted or (name == "size" and got == "ENOTCONN"), call)
    tally.note(f"at once {when}", time.monotonic() - begun < SOON, True)


def crowd(tally, tools):
    """The server takes 32 connections: a mount that gets too few of them is refused."""
    with Ground(tally, tools, "connections=4") as ground:
        clients = [ground.client() for _ in range(26)]
        status, words = start(tools, ground.socket)
        tally.note("too few connections", (status, "refused" in words), (3, True))
        for client in clients:
            client.hang_up()


def start(tools, *words):
    """A mount that is to be refused: its exit status, and what it says."""
    with tempfile.TemporaryDirectory() as place:
        done = subprocess.run(tools.mount + [*words, place, "-f"], capture_output=True, text=True, timeout=120)
        subprocess.run(["fusermount3", "-u", place], capture_output=True)
        return done.returncode, done.stderr


def elsewhere(tally, tools):
    """A mount namespace that another process made meanwhile has the mount, too: its process ends with that one."""
    with Ground(tally, tools) as ground:
        put(ground.at("x"), b"hello")
        other = subprocess.Popen(["unshare", "-m", "sleep", "3"], stderr=subprocess.DEVNULL)
        if not until(lambda: other.poll() is not None or ground.is_held_by(other.pid), SOON) or other.poll() is not None:
            print("mount: left out: a mount namespace, which can't be had here")
        ground.unmount()
        other.wait()


def refused(tally, tools):
    """What the mount refuses to begin with."""
    status, words = start(tools, "/nowhere/s")
    tally.note("no server", (status, "No such file" in words), (3, True))
    for option in ("connections=3", "connections=32", "volume=256", "attr=-1", "mode=1777", "nosuchoption"):
        with Ground(tally, tools) as ground:
            tally.note(f"option {option}", start(tools, "-o", option, ground.socket)[0], 2)
    done = subprocess.run(tools.mount + ["/nowhere/s", "/nowhere/m"], capture_output=True, text=True, timeout=120)
    tally.note("no mount point", (done.returncode, done.stderr), (3, "fltmount: /nowhere/m: No such file or directory\n"))
    done = subprocess.run(tools.mount, capture_output=True, text=True, timeout=120)
    tally.note("no words", (done.returncode, "usage" in done.stderr), (2, True))
    done = subprocess.run(tools.mount + ["--help"], capture_output=True, text=True, timeout=120)
    tally.note("help", (done.returncode, "usage" in done.stdout), (0, True))


def run(tally, tools):
    """All ends."""
    for part in (detach, detach_cached, stale, churn, dismount, dismount_writers, stop, death, crowd, elsewhere, refused):
        part(tally, tools)
