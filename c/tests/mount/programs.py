"""Programs that nobody wrote for the mount: sqlite, fio, cp, tar, sed, and those that make folders."""
import os
import shutil
import sqlite3
import subprocess
import sys

from ground import Ground, shifted, whole

MODES = "delete truncate persist memory".split()
ROWS = 500
PATIENCE = 200


def fill(path, mode):
    """A database is filled, changed in single transactions, rolled back and packed: the sum of its rows, and what its own check says."""
    database = sqlite3.connect(path, isolation_level=None, timeout=20)
    database.execute(f"pragma journal_mode={mode}")
    database.execute(f"create table t_{mode}(n integer primary key, words text)")
    database.execute("begin")
    database.executemany(f"insert into t_{mode} values(?, ?)", ((number, "words" * 20) for number in range(ROWS)))
    database.execute("commit")
    for number in range(20):
        database.execute(f"update t_{mode} set words = 'changed' where n = ?", (number,))
    database.execute("begin")
    database.execute(f"delete from t_{mode}")
    database.execute("rollback")
    database.execute("vacuum")
    found = database.execute(f"select sum(n) from t_{mode}").fetchone()[0], database.execute("pragma integrity_check").fetchone()[0]
    database.close()
    return found


def sqlite(tally, ground, modes):
    """sqlite in its journal modes."""
    wanted = ROWS * (ROWS - 1) // 2, "ok"
    for mode in modes:
        try:
            found = fill(ground.at("base"), mode)
        except sqlite3.Error as error:
            found = str(error)
        tally.note(f"sqlite, journal {mode}", found, wanted)
    tally.note("the folder below has the filter's bytes", whole(ground.below("base")) == shifted(whole(ground.at("base"))), True)
    if shutil.which("sqlite3"):
        tally.note("the program sqlite3", program("sqlite3", ground.at("base"), "pragma integrity_check"), (0, "ok\n"))
    else:
        print("mount: left out: sqlite3, which isn't here")


def program(*words):
    """A program's exit status, and what it prints."""
    try:
        done = subprocess.run(words, stdout=subprocess.PIPE, stderr=subprocess.STDOUT, text=True, timeout=PATIENCE)
    except subprocess.TimeoutExpired:
        return "it takes too long", ""
    return done.returncode, done.stdout


def fio(tally, ground, room):
    """fio writes, reads back, and compares its own checksums."""
    if not shutil.which("fio"):
        print("mount: left out: fio, which isn't here")
        return
    common = ["fio", f"--directory={ground.mount}", "--ioengine=psync", "--fallocate=none", "--verify=crc32c", "--verify_fatal=1", "--minimal", "--group_reporting"]
    os.chdir(room)
    for name, words in {
        "mixed": ["--rw=randrw", "--bs=4k-128k", "--size=512k", "--numjobs=3"],
        "written": ["--rw=randwrite", "--bs=4k", "--size=256k", "--numjobs=3", "--verify_backlog=16", "--fsync=16"],
    }.items():
        tally.note(f"fio {name}", program(*common, f"--name={name}", *words)[0], 0)
    os.chdir("/")
    for name in os.listdir(ground.mount):
        os.unlink(ground.at(name))


def copies(tally, ground, room):
    """cp, cmp, tar, sed and sort."""
    source = os.path.join(room, "source")
    os.mkdir(source)
    for number in range(20):
        with open(os.path.join(source, f"file{number}"), "wb") as file:
            file.write(os.urandom(number * 2_000))
    script = f"""
        set -e
        cp {source}/* {ground.mount}/
        for file in {source}/*; do cmp $file {ground.mount}/$(basename $file); done
        (cd {ground.mount}; tar -cf {room}/t.tar *)
        mkdir {room}/out && tar -C {room}/out -xf {room}/t.tar
        diff -r {source} {room}/out
        rm {ground.mount}/*
        tar -C {ground.mount} -xf {room}/t.tar
        diff -r {source} {ground.mount}
        seq 1000 > {ground.mount}/numbers
        sed -i s/5/five/ {ground.mount}/numbers
        grep -c five {ground.mount}/numbers
        sort -r -o {ground.mount}/numbers {ground.mount}/numbers
        head -n 1 {ground.mount}/numbers
        mv {ground.mount}/numbers {ground.mount}/others
        wc -l < {ground.mount}/others
    """
    tally.note("cp, tar, sed, sort, mv", program("sh", "-c", script), (0, "271\nfive99\n1000\n"))


def trees(tally, ground, room):
    """Programs that make folders: cp, tar, rsync, git, and a build."""
    source = os.path.join(room, "source")
    for folder in ("a", "a/b", "c"):
        os.makedirs(os.path.join(source, folder))
        for number in range(5):
            with open(os.path.join(source, folder, f"file{number}"), "wb") as file:
                file.write(os.urandom(number * 3_000))
    for folder in ("a/b", "a", "c", "."):
        os.utime(os.path.join(source, folder), (5, 7))
    at = ground.at
    steps = {
        "cp": f"cp -a {source} {at('cp')} && diff -r {source} {at('cp')}",
        "tar": f"tar -cf {room}/t.tar -C {room} source && tar -xf {room}/t.tar -C {ground.mount} && diff -r {source} {at('source')}",
        "rsync": f"rsync -a {source}/ {at('rsync')}/ && diff -r {source} {at('rsync')} && rsync -ain {source}/ {at('rsync')}/",
        "git": f"mkdir {at('git')} && cd {at('git')} && git init -q && cp -r {source}/* . && git add . && git -c user.name=a -c user.email=a@b commit -qm first"
        " && git mv a moved && git -c user.name=a -c user.email=a@b commit -qm second && git status --porcelain && git checkout -q HEAD~1 && git fsck --no-progress",
        "cc": f"mkdir {at('build')} && cd {at('build')} && printf 'int main(void) {{ return 0; }}' > m.c && cc -c m.c -o m.o && cc m.o -o m && ./m",
        "mv": f"mv {at('cp')} {at('renamed')} && diff -r {source} {at('renamed')} && ! ls {at('cp')} 2> /dev/null",
        "rm": f"rm -r {ground.mount}/* && ls -A {ground.mount}",
    }
    for name, script in steps.items():
        if shutil.which(name):
            tally.note(f"{name} of a tree", program("sh", "-c", script), (0, ""))
        else:
            print(f"mount: left out: {name}, which isn't here")


def run(tally, tools):
    """These, above three filters; with pages that the kernel keeps also what maps files."""
    for options, modes in (((), MODES), (("below={host}", "cached"), MODES + ["wal"])):
        with Ground(tally, tools, *options, patience=600) as ground:
            ground.attach(shift=100, meter=200, carry=150)
            sqlite(tally, ground, modes)
            for name in os.listdir(ground.mount):
                os.unlink(ground.at(name))
            fio(tally, ground, ground.room)
    with Ground(tally, tools, "below={host}", "copyrename", "memtimes", patience=600, alone=True) as ground:
        ground.attach(shift=100, meter=200, carry=150)
        copies(tally, ground, ground.room)
    with Ground(tally, tools, "below={host}", "cached", "keep", "mode=0755", patience=600) as ground:
        ground.attach(shift=100, meter=200, carry=150)
        trees(tally, ground, ground.room)
