"""Reads that a filter holds: they keep nobody else from working, and can be killed."""
import os
import signal
import subprocess
import threading
import time

from ground import Ground, put, shifted, until, wait_for_reads, whole

READERS = 40
SOON = 20


def read(path):
    """A program that reads five bytes. `cat` would read once more, for the end."""
    return subprocess.Popen(["head", "-c", "5", path], stdout=subprocess.PIPE, stderr=subprocess.DEVNULL)


def ended(process, seconds=SOON):
    """Whether it ended in time, or is still there."""
    return until(lambda: process.poll() is not None, seconds)


def bytes_of(process):
    """What it printed, where it ends in time."""
    try:
        return process.communicate(timeout=SOON)[0]
    except subprocess.TimeoutExpired:
        process.kill()
        return "waits"


def timed(function, *words):
    """Whether a call comes back soon."""
    begun = time.monotonic()
    function(*words)
    return time.monotonic() - begun < SOON


def one(tally, ground):
    """One reader is held; others go on, and a flush lets it go."""
    reader = read(ground.at("x"))
    wait_for_reads(ground.at("x"), f"/proc/{reader.pid}")
    tally.note("held", reader.poll(), None)
    tally.note("a list then", timed(os.listdir, ground.mount), True)
    tally.note("a look then", timed(os.stat, ground.at("x")), True)
    tally.note("a write then", timed(put, ground.at("y"), b"other"), True)
    with open(ground.at("x"), "rb+", buffering=0) as file:
        tally.note("a sync then", timed(os.fsync, file), True)
    tally.note("what was held", bytes_of(reader), b"hello")


def killed(tally, ground):
    """Signals end a held reader, and its connection is used again."""
    for signal_number in (signal.SIGKILL, signal.SIGINT, signal.SIGTERM) * 6:
        reader = read(ground.at("x"))
        time.sleep(0.05)
        reader.send_signal(signal_number)
        tally.note(f"reader ended by {signal_number}", (ended(reader), reader.returncode), (True, -signal_number))
        reader.stdout.close()
    tally.note("a list behind them", timed(os.listdir, ground.mount), True)
    tally.note("a flush by another client", ground.flush("x"), 0)


def same_file(tally, ground):
    """One program reads by a handle, and syncs by the same one."""
    file = os.open(ground.at("x"), os.O_RDWR)
    got = []
    reader = threading.Thread(target=lambda: got.append(os.pread(file, 5, 0)))
    reader.start()
    wait_for_reads(ground.at("x"), f"/proc/self/task/{reader.native_id}")
    tally.note("a sync by the handle that waits", timed(os.fsync, file), True)
    reader.join(SOON)
    tally.note("what its own sync let go", got, [b"hello"])
    os.close(file)


def many(tally, ground, instance):
    """More readers than connections; a detach lets all of them go."""
    readers = [read(ground.at("x")) for _ in range(READERS)]
    time.sleep(1) # some wait for a connection, and don't read
    tally.note("all are held", sum(reader.poll() is None for reader in readers), READERS)
    tally.note("a list beside many", timed(os.listdir, ground.mount), True)
    tally.note("a look beside many", timed(os.stat, ground.at("x")), True)
    tally.note("a detach", until(lambda: ground.ask("detach", instance)[0] == 0), True)
    tally.note("what all of them read", {bytes_of(reader) for reader in readers}, {b"hello"})


def deleted(tally, ground):
    """A file is deleted while its reader is held, and gone once that is closed."""
    put(ground.at("d"), b"hello")
    reader = read(ground.at("d"))
    wait_for_reads(ground.at("d"), f"/proc/{reader.pid}")
    tally.note("a deletion then", timed(os.unlink, ground.at("d")), True)
    tally.note("its name then", os.path.exists(ground.at("d")), False)
    tally.note("a flush of another file", ground.flush("x"), 0)
    tally.note("what the reader got", bytes_of(reader), b"hello")
    tally.note("gone below", until(lambda: not os.path.exists(ground.below("d"))), True)


def unmounted(tally, tools):
    """The mount ends while readers are held."""
    with Ground(tally, tools) as ground:
        ground.attach(hold=400)
        put(ground.at("x"), b"hello")
        readers = [read(ground.at("x")) for _ in range(3)]
        wait_for_reads(ground.at("x"), *(f"/proc/{reader.pid}" for reader in readers))
        ground.mounted.terminate()
        tally.note("readers end", [ended(reader) for reader in readers], [True] * 3)
        for reader in readers:
            reader.stdout.close()


def run(tally, tools):
    """Held reads, in all these ways."""
    with Ground(tally, tools) as ground:
        instance = ground.attach(shift=100, hold=400)["hold"]
        put(ground.at("x"), b"hello")
        for part in (one, killed, same_file, deleted):
            part(tally, ground)
        many(tally, ground, instance)
        tally.note("a read without the filter", whole(ground.at("x")), b"hello")
        tally.note("below", whole(ground.below("x")), shifted(b"hello"))
    unmounted(tally, tools)
