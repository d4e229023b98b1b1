"""Safe writes: a temporary file is written, synced, and renamed over the old one. Whatever ends the mount or the server, the name has the old file or the new one, whole; and who has one of
both open keeps it."""
import os
import random
import resource
import shutil
import subprocess
import sys
import threading
import time

from ground import Ground, put, whole

SIZE = 100_000
READS = 100


def content(number):
    """A file's bytes, all of one number."""
    return b"%08d" % number * (SIZE // 8)


def number_of(data):
    """The number of which all of it is, or what it is."""
    return int(data[:8]) if data[:8].isdigit() and data == content(int(data[:8])) else data[:20] + b".." + data[-20:]


def write_in(place, number):
    """One safe write in an open folder, which stays that of the mount when the mount point is a plain folder again."""
    file = os.open("cfg.tmp", os.O_CREAT | os.O_WRONLY | os.O_TRUNC, 0o644, dir_fd=place)
    os.write(file, content(number))
    os.fsync(file)
    os.close(file)
    os.rename("cfg.tmp", "cfg", src_dir_fd=place, dst_dir_fd=place)


def write(folder, number):
    """One safe write."""
    place = os.open(folder, os.O_RDONLY | os.O_DIRECTORY)
    write_in(place, number)
    os.close(place)


def write_on(folder, number):
    """One after the other, until one fails. Each that was acknowledged is said."""
    try:
        place = os.open(folder, os.O_RDONLY | os.O_DIRECTORY)
        while True:
            number += 1
            write_in(place, number)
            os.write(1, b"%d\n" % number)
    except OSError:
        pass


def end(ground, is_server):
    """The mount or the server is killed; and then both are there anew."""
    (ground.server if is_server else ground.mounted).kill()
    for process in (ground.mounted, ground.server) if is_server else (ground.mounted,):
        process.kill()
        process.wait()
    subprocess.run(["fusermount3", "-u", "-z", ground.mount], capture_output=True, check=False)


def killed(tally, tools, is_server):
    """As often as is wanted: what was acknowledged last is there, or the next one."""
    chance = random.Random(tools.seed)
    with Ground(tally, tools, "below={host}", patience=60 + 10 * tools.kills) as ground:
        write(ground.mount, 1)
        last, bad = 1, []
        for _ in range(tools.kills):
            writer = subprocess.Popen([sys.executable, __file__, ground.mount, str(last)], stdout=subprocess.PIPE)
            for _ in range(chance.randrange(1, 5)):
                last = int(writer.stdout.readline())
            time.sleep(chance.random() * 0.008)
            end(ground, is_server)
            for line in writer.stdout:
                last = int(line)
            writer.wait()
            found = number_of(whole(ground.below("cfg")))
            bad += [] if found in (last, last + 1) else [(found, last)]
            last = found if isinstance(found, int) else last
            if is_server:
                ground.start_server()
            ground.start_mount()
        tally.note(f"safe writes in which the {'server' if is_server else 'mount'} is killed", bad, [])


def looked_at(tally, tools):
    """Who looks below meanwhile sees one of both."""
    with Ground(tally, tools, "below={host}") as ground:
        write(ground.mount, 1)
        is_over, bad, looks = threading.Event(), [], []

        def look():
            while not is_over.is_set() or not looks:
                found = number_of(whole(ground.below("cfg")))
                looks.append(found)
                bad.extend([] if isinstance(found, int) else [found])

        looker = threading.Thread(target=look)
        looker.start()
        for number in range(2, READS):
            write(ground.mount, number)
        is_over.set()
        looker.join()
        tally.note("looks below while a file is replaced", bad, [])


def refused_by_disk(tally, tools):
    """A rename writes no bytes: it goes on where the disk takes none."""
    with Ground(tally, tools, "below={host}") as ground:
        put(ground.at("cfg"), content(1))
        put(ground.at("cfg.tmp"), content(2))
        resource.prlimit(ground.server.pid, resource.RLIMIT_FSIZE, (0, resource.RLIM_INFINITY))
        tally.call("a rename where no byte is written", None, os.rename, ground.at("cfg.tmp"), ground.at("cfg"))
        resource.prlimit(ground.server.pid, resource.RLIMIT_FSIZE, (resource.RLIM_INFINITY, resource.RLIM_INFINITY))
        tally.call("it is the new one", 2, lambda: number_of(whole(ground.below("cfg"))))
        tally.call("the other name", "ENOENT", os.stat, ground.at("cfg.tmp"))


def rotated(tally, tools):
    """An open file gets another name, as logs do: what is written comes there, and a new file has the name."""
    with Ground(tally, tools, "below={host}", "keep") as ground:
        at, call = ground.at, tally.call
        ground.attach(shift=100)
        log = os.open(at("log"), os.O_CREAT | os.O_RDWR | os.O_APPEND, 0o640)
        os.write(log, b"one ")
        os.mkdir(at("d"))
        number = os.fstat(log).st_ino
        call("a log that is open", None, os.rename, at("log"), at("d/log.1"))
        call("is written on", 4, os.write, log, b"two ")
        call("by the new name", b"one two ", whole, at("d/log.1"))
        call("it is the same file", (number, 0o640), lambda: (os.stat(at("d/log.1")).st_ino, os.stat(at("d/log.1")).st_mode & 0o777))
        put(at("log"), b"new")
        call("another one has the name", (b"new", True), lambda: (whole(at("log")), os.stat(at("log")).st_ino != number))
        call("of both each has its own", b"one two ", os.pread, log, 99, 0)
        call("its folder too", None, os.rename, at("d"), at("e"))
        call("and it is written on", 5, os.write, log, b"three")
        os.close(log)
        call("all of it", b"one two three", whole, at("e/log.1"))
        call("below as filters leave it", bytes(byte + 1 for byte in b"one two three"), whole, ground.below("e/log.1"))
        if shutil.which("git"):
            words = f"cd {ground.mount} && git init -q g && cd g && echo a > README && git add . && git -c user.name=a -c user.email=a@b commit -qm a && git mv README Readme && git status --short"
            call("git mv in case alone", "R  README -> Readme\n", lambda: subprocess.run(words, shell=True, capture_output=True, text=True, check=False).stdout)


def replaced_open(tally, tools):
    """What is open is replaced, if the server can: its readers and writers have the old file, which is gone with them. Else nothing is lost."""
    with Ground(tally, tools, "below={host}", "keep") as ground:
        at, call = ground.at, tally.call
        put(at("cfg"), b"the old one")
        put(at("tmp"), b"new")
        old = os.open(at("cfg"), os.O_RDWR)
        if tools.renames == "closed":
            call("onto what is open", "EBUSY", os.rename, at("tmp"), at("cfg"))
            call("nothing is lost", (b"the old one", b"new"), lambda: (whole(at("cfg")), whole(at("tmp"))))
            os.close(old)
            return
        call("onto what is open", None, os.rename, at("tmp"), at("cfg"))
        call("the name", b"new", whole, at("cfg"))
        call("who has the old one", b"the old one", os.pread, old, 99, 0)
        call("writes it", 3, os.pwrite, old, b"THE", 0)
        call("cuts it", None, os.ftruncate, old, 7)
        call("syncs it", None, os.fsync, old)
        call("and knows that it is gone", (7, 0), lambda: (os.fstat(old).st_size, os.fstat(old).st_nlink))
        call("which nobody sees", (b"new", b"new"), lambda: (whole(at("cfg")), whole(ground.below("cfg"))))
        put(at("tmp"), b"newer")
        new = os.open(at("cfg"), os.O_RDONLY)
        call("once more", None, os.rename, at("tmp"), at("cfg"))
        call("each has its own", (b"THE old", b"new", b"newer"), lambda: (os.pread(old, 9, 0), os.pread(new, 9, 0), whole(at("cfg"))))
        call("the name may be deleted", None, os.unlink, at("cfg"))
        call("and made anew", 5, put, at("cfg"), b"third")
        os.close(old)
        os.close(new)
        call("which stays", (b"third", ["cfg"]), lambda: (whole(at("cfg")), os.listdir(ground.host)))


def run(tally, tools):
    """All of it, above a server that knows renames."""
    if tools.renames == "copied":
        print("mount: left out: safe writes, since the server knows no rename")
        return
    rotated(tally, tools)
    replaced_open(tally, tools)
    refused_by_disk(tally, tools)
    looked_at(tally, tools)
    killed(tally, tools, False)
    killed(tally, tools, True)


if __name__ == "__main__":
    write_on(sys.argv[1], int(sys.argv[2]))
