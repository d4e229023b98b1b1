"""An encryption layer above a server whose volume caches: programs on the mount have plain text, and what an fsync acknowledged lies on the disk as the layer makes it, whatever ends the server."""
import os
import random

from ground import Ground, put, whole

ALTITUDE = 140000
FILES = 12
LONGEST = 40000


def turned(plain):
    """What the layer makes of a file's bytes."""
    return bytes(byte ^ 0xA5 ^ (at * 7 & 0xFF) for at, byte in enumerate(plain))


def put_synced(path, plain, at=0):
    """Writes there, and comes back once that is on the disk."""
    file = os.open(path, os.O_RDWR | os.O_CREAT, 0o644)
    os.pwrite(file, plain, at)
    os.fsync(file)
    os.close(file)


def layered_ground(tally, tools):
    return Ground(tally, tools, server=[tools.server, "--cached"])


def synced(tally, tools):
    """Each file that was synced is turned on the disk, and the server is killed; the next one gives it back."""
    chance = random.Random(7)
    written = {}
    with layered_ground(tally, tools) as ground:
        ground.attach(layer=ALTITUDE)
        for number in range(FILES):
            name, plain = f"f{number}", chance.randbytes(chance.randrange(1, LONGEST))
            put_synced(ground.at(name), plain)
            at, more = chance.randrange(len(plain)), chance.randbytes(chance.randrange(1, 5000))
            put_synced(ground.at(name), more, at)
            written[name] = plain[:at] + more + plain[at + len(more):]
            tally.call(f"layered, {name} above", written[name], whole, ground.at(name))
            tally.call(f"layered, {name} on the disk", turned(written[name]), whole, ground.below(name))
        put(ground.at("lost"), b"never synced")
        ground.kill_server()
        for name, plain in written.items():
            tally.call(f"layered, {name} after the kill", turned(plain), whole, ground.below(name))
        ground.start_server()
        ground.attach(layer=ALTITUDE)
        ground.unmount()
        ground.start_mount()
        for name, plain in written.items():
            tally.call(f"layered, {name} again", plain, whole, ground.at(name))


def stopped(tally, tools):
    """What nobody synced is there once the server has ended, too."""
    with layered_ground(tally, tools) as ground:
        ground.attach(layer=ALTITUDE)
        put(ground.at("x"), b"plain text")
        ground.unmount()
        with ground.client() as client:
            tally.note("layered, the stop", client.stop().status, 0)
        tally.note("layered, the server's end", ground.server.wait(60), 0)
        tally.call("layered, after the stop", turned(b"plain text"), whole, ground.below("x"))


def run(tally, tools):
    synced(tally, tools)
    stopped(tally, tools)
