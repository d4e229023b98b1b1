#!/usr/bin/env python3
"""Real programs above the mount: real.py --server SERVER --mount FLTMOUNT [--filters NAME@ALTITUDE,..] [--denies] [NAME ..]

Some seventy programs, or those that are named, each in a folder of its own of one mount with `cached`, `keep`, `mode=0755` and the folder below. With --denies a filter denies each deletion: then programs
that delete or rename have to fail, and stress-ng is left out. Programs that aren't here are left out, and named. The last line is 'real: N passed, M failed'."""
import argparse
import os
import shlex
import shutil
import subprocess
import sys

from ground import Ground, Tally, put

PATIENCE = 240
POSTGRES = "/usr/lib/postgresql"
# Of each: which program it needs, and a script in a folder `$M` of the mount, with a folder `$O` and files `$S` beside it. A script is to end with 0.
KEEPING = {
    "sqlite in truncate": ("sqlite3", "sqlite3 d.db \"pragma journal_mode=truncate; create table t(a,b); with recursive c(x) as (select 1 union all select x+1 from c where x<20000) insert into t select x, hex(randomblob(20)) from c;"
                           " create index i on t(b); update t set b=a where a%3=0; delete from t where a%7=0; vacuum; pragma integrity_check\" | tail -n 1 | grep -qx ok"),
    "sqlite in persist": ("sqlite3", "sqlite3 e.db \"pragma journal_mode=persist; create table t(a); insert into t values(1),(2); select sum(a) from t\" | tail -n 1 | grep -qx 3"),
    "fio, checksums": ("fio", "fio --name=v --directory=$M --rw=randrw --bsrange=4k-128k --size=4m --numjobs=3 --verify=crc32c --ioengine=psync --fallocate=none --group_reporting"),
    "fio, a mapping": ("fio", "fio --name=m --directory=$M --rw=randrw --bs=4k --size=4m --ioengine=mmap --fallocate=none --verify=crc32c"),
    "fio, libaio past the pages": ("fio", "fio --name=a --directory=$M --rw=randrw --bs=4k --size=4m --ioengine=libaio --iodepth=16 --direct=1 --fallocate=none --verify=crc32c"),
    "fio, io_uring": ("fio", "fio --name=u --directory=$M --rw=randrw --bs=4k --size=4m --ioengine=io_uring --iodepth=16 --fallocate=none --verify=crc32c"),
    "fio, a megabyte at a time": ("fio", "fio --name=w --directory=$M --rw=randrw --bs=1m --size=16m --direct=1 --ioengine=psync --fallocate=none --verify=crc32c"),
    "cp of many files": ("cp", "cp /usr/share/i18n/locales/* . 2> /dev/null || cp /usr/include/*.h .; for f in *; do cmp $f /usr/share/i18n/locales/$f 2> /dev/null || cmp $f /usr/include/$f || exit 1; done"),
    "cp -r": ("cp", "cp -r $S tree && diff -r $S tree"),
    "cp -p": ("cp", "cp -p $S/a/f9 p && [ \"$(stat -c '%a %Y' p)\" = \"$(stat -c '%a %Y' $S/a/f9)\" ]"),
    "cp -a": ("cp", "cp -a $S kept && diff -r $S kept"),
    "install": ("install", "install -m 640 $S/a/f9 i && [ $(stat -c %a i) = 640 ]"),
    "rsync --inplace": ("rsync", "rsync --checksum --inplace $S/a/f* . && for f in $S/a/f*; do cmp $f $(basename $f) || exit 1; done"),
    "tar x": ("tar", "tar -cf $O/s.tar -C $S . && tar -xf $O/s.tar && diff -r $S ."),
    "tar c and d": ("tar", "cp $S/a/* . && tar -cf $O/t.tar . && tar -df $O/t.tar"),
    "sort -o": ("sort", "seq 1000 | shuf > n; sort -n -o n n; seq 1000 | cmp - n"),
    "dd past the pages": ("dd", "dd if=/dev/urandom of=d bs=4096 count=100 oflag=direct,dsync 2> /dev/null && dd if=d of=$O/d bs=4096 iflag=direct 2> /dev/null && cmp d $O/d"),
    "dd of large blocks": ("dd", "dd if=/dev/urandom of=$O/l bs=1M count=3 2> /dev/null && dd if=$O/l of=l bs=1M 2> /dev/null && cmp l $O/l && dd if=l bs=1M 2> /dev/null | cmp - $O/l"),
    "truncate": ("truncate", "truncate -s 5000 t && truncate -s 10 t && [ $(stat -c %s t) = 10 ]"),
    "touch": ("touch", "touch t && touch -d 2001-01-01 t && [ $(date -r t +%Y) = 2001 ]"),
    "chmod +x": ("chmod", "printf '#!/bin/sh\\necho run\\n' > x; chmod +x x && [ \"$(./x)\" = run ]"),
    "chmod 600": ("chmod", "(umask 077; echo key > k); stat -c %a k | grep -qx .00"),
    "flock": ("flock", "touch l; flock l flock -n l true && exit 1; flock l true"),
    "mkdir -p": ("mkdir", "mkdir -p a/b/c && [ -d a/b/c ] && rmdir a/b/c && [ ! -e a/b/c ]"),
    "tail -f": ("tail", "touch t; timeout 3 tail -f t > $O/tail & sleep 0.7; echo line >> t; wait; grep -q line $O/tail"),
    "many names": ("ls", "for i in $(seq 1500); do : > nam$i; done; [ $(ls | wc -l) = 1500 ]"),
    "find and wc": ("find", "cp -r $S t && [ $(find t -type f | wc -l) = $(find $S -type f | wc -l) ] && [ \"$(cat t/*/f* | wc -c)\" = \"$(cat $S/*/f* | wc -c)\" ]"),
    "a shared mapping": ("python3", "python3 -c \"import mmap; f=open('m','wb+'); f.write(b'x'*10000); f.flush(); m=mmap.mmap(f.fileno(),0); m[5:6]=b'R'; m.flush(); f.seek(5); assert f.read(1)==b'R'\""),
    "cc, a build": ("cc", "cp $T/mount/*.c $T/mount/*.h . && cp -r $T/wire . && for f in *.c wire/client.c wire/frame.c; do cc -std=gnu11 -I. -c $f $(pkg-config fuse3 --cflags) || exit 1; done && cc *.o -o m -pthread $(pkg-config fuse3 --libs) && ./m --help | grep -q usage"),
    "make": ("make", "printf '#include <stdio.h>\\nint main(void){puts(\"hi\");}' > a.c; printf 'a: a.o\\n\\tcc a.o -o a\\na.o: a.c\\n\\tcc -c a.c\\n' > Makefile; make -s && [ $(./a) = hi ] && make | grep -q 'up to date'"),
    "ar and ranlib": ("ar", "printf 'int f(void){return 3;}' > f.c; printf 'int f(void); int main(void){return f() - 3;}' > g.c; cc -c f.c && ar rcs l.a f.o && cc g.c l.a -o g && ./g"),
    "python, dbm": ("python3", "python3 -c \"import dbm.dumb as d; x=d.open('q','c'); x['a']='b'; x.close(); x=d.open('q'); assert x['a']==b'b'; x['c']='d'; x.close()\""),
}
# Those that delete or rename.
DELETING = {
    "sqlite in delete": ("sqlite3", "sqlite3 d.db \"create table t(a,b); with recursive c(x) as (select 1 union all select x+1 from c where x<20000) insert into t select x, hex(randomblob(20)) from c; create index i on t(b);"
                         " update t set b=a where a%3=0; delete from t where a%7=0; vacuum; pragma integrity_check\" | grep -qx ok"),
    "sqlite in wal": ("sqlite3", "sqlite3 w.db \"pragma journal_mode=wal; create table t(a,b); with recursive c(x) as (select 1 union all select x+1 from c where x<20000) insert into t select x, hex(randomblob(20)) from c;"
                      " pragma wal_checkpoint(truncate); pragma integrity_check\" | tail -n 1 | grep -qx ok && [ ! -e w.db-wal ]"),
    "rsync -a": ("rsync", "rsync -a $S/ r/ && diff -r $S r && [ -z \"$(rsync -ain $S/ r/)\" ]"),
    "rsync -r": ("rsync", "rsync -r $S/ r/ && diff -r $S r"),
    "zip": ("zip", "(cd $S && zip -qr $M/a.zip .) && unzip -tq a.zip > /dev/null"),
    "git": ("git", "git init -q && cp -r $S/* . && git add . && git commit -qm first && git mv a moved && git commit -qm second && [ -z \"$(git status --porcelain)\" ] && git checkout -q HEAD~1 && [ -d a ] && git gc -q && git fsck --no-progress"),
    "git, a rebase": ("git", "git init -q -b main && for i in 1 2 3; do echo $i > f$i; git add .; git commit -qm $i; done; git checkout -q -b other HEAD~2 && echo o > o && git add . && git commit -qm o && git rebase -q main && [ $(git log --oneline | wc -l) = 4 ]"),
    "git, its folder elsewhere": ("git", "git init -q --separate-git-dir $O/elsewhere . && cp $S/a/* . && git add . && git commit -qm x && echo hi >> f1 && git checkout -q . && git fsck"),
    "git clone": ("git", "git init -q -b main one && cd one && echo a > a && git add . && git commit -qm a && cd .. && git clone -q one two && cmp one/a two/a"),
    "compileall": ("python3", "cp $(python3 -c 'import os; print(os.path.dirname(os.__file__))')/a*.py . && python3 -m compileall -q . && ls __pycache__/*.pyc > /dev/null"),
    "sed -i": ("sed", "echo a > s; sed -i s/a/b/ s && grep -qx b s"),
    "mv": ("mv", "echo a > one; mv one two && [ $(cat two) = a ] && [ ! -e one ] && mkdir d && mv two d && cat d/two > /dev/null"),
    "mv of a tree": ("mv", "cp -r $S t && mv t u && diff -r $S u && [ ! -e t ]"),
    "os.rename": ("python3", "python3 -c \"import os; open('a','w').write('x'); os.rename('a','b'); assert open('b').read()=='x' and not os.path.exists('a')\""),
    "vi": ("vi", "echo one > v; printf 'Atwo\\033:wq\\n' | TERM=dumb vi v > /dev/null 2>&1; grep -q two v"),
    "a temporary file": ("python3", "python3 -c \"import tempfile; f=tempfile.TemporaryFile(dir='.'); f.write(b'x'*10000); f.seek(0); assert len(f.read())==10000; g=tempfile.NamedTemporaryFile(dir='.'); g.write(b'y'); g.flush()\""),
    "gzip": ("gzip", "cp $S/a/f9 z && gzip z && gunzip -c z.gz | cmp - $S/a/f9"),
    "rm -r": ("rm", "cp -r $S t && rm -r t && [ ! -e t ]"),
    "mktemp": ("mktemp", "d=$(mktemp -d ./tmp.XXXXXX) && f=$(mktemp $d/XXXXXX) && echo x > $f && rm -r $d && [ ! -e $d ]"),
    "postgres": ("setpriv", "export PATH=$(ls -d /usr/lib/postgresql/*/bin | tail -n 1):$PATH; u=$(id -u postgres) && chown $u . && as=\"setpriv --reuid=$u --clear-groups\" && chmod 777 $O && start=\"$as pg_ctl -D pg -w -t 100 -l $O/log -o '-k $O -h' -s\""
                 " && $as initdb -D pg -N > /dev/null && $as pg_ctl -D pg -w -t 100 -l $O/log -o \"-k $O -c listen_addresses=\" -s start && $as createdb -h $O b && $as pgbench -h $O -i -q b 2> /dev/null && $as pgbench -h $O -T 3 -c 4 b > /dev/null 2>&1"
                 " && $as pg_ctl -D pg -m immediate -s stop && $as pg_ctl -D pg -w -t 100 -l $O/log -o \"-k $O -c listen_addresses=\" -s start"
                 " && s=$($as psql -h $O -d b -Atc 'select sum(bbalance) = (select sum(abalance) from pgbench_accounts), (select count(*) from pgbench_history) > 0 from pgbench_branches'); $as pg_ctl -D pg -m fast -s stop; [ \"$s\" = 't|t' ]"),
}
# Classes of stress-ng, with those that need folders, modes, times and renames.
CLASSES = "flock dentry rename readahead hdd fallocate dir seek utime chmod copy-file sendfile lockf mmap open fstat getdent".split()
STRESS = {f"stress-ng {name}": ("stress-ng", f"! stress-ng --{name} 1 --timeout 3 --temp-path . 2>&1 | grep -E ' fail|unsuccessful'") for name in CLASSES}


def source_of(room):
    """A tree of files to copy."""
    source = os.path.join(room, "source")
    for folder in ("a", "b", "b/c"):
        os.makedirs(os.path.join(source, folder))
        for number in range(30):
            put(os.path.join(source, folder, f"f{number}"), os.urandom(number * 371))
    put(os.path.join(source, "a", "f9"), os.urandom(70_000))
    os.chmod(os.path.join(source, "a", "f9"), 0o640)
    os.utime(os.path.join(source, "a", "f9"), (1_000_000_000, 1_000_000_000))
    return source


def run(ground, source, name, script):
    """A program's exit status, and the end of what it printed."""
    folder, out = ground.at(name.replace(" ", "-").replace(",", "")), os.path.join(ground.room, "out")
    os.makedirs(out, exist_ok=True)
    os.makedirs(folder)
    author = {f"GIT_{who}_{what}": value for who in ("AUTHOR", "COMMITTER") for what, value in (("NAME", "a"), ("EMAIL", "a@b"))}
    env = {**os.environ, **author, "M": folder, "O": out, "S": source, "T": os.path.join(os.path.dirname(os.path.abspath(__file__)), "../.."), "LC_ALL": "C"}
    env["T"] = os.path.realpath(env["T"])
    try:
        done = subprocess.run(["bash", "-c", script], cwd=folder, env=env, stdout=subprocess.PIPE, stderr=subprocess.STDOUT, text=True, timeout=PATIENCE, errors="replace")
    except subprocess.TimeoutExpired:
        return "it takes too long", ""
    finally:
        shutil.rmtree(out, ignore_errors=True)
    return done.returncode, done.stdout[-300:]


def all_of(tally, tools, ground):
    """Each program, by what it is to come to."""
    source = source_of(ground.room)
    missing = set()
    for name, (program, script) in {**KEEPING, **DELETING, **({} if tools.denies else STRESS)}.items():
        if tools.names and not any(word in name for word in tools.names):
            continue
        if not shutil.which(program) or (name == "postgres" and (os.geteuid() != 0 or not os.path.isdir(POSTGRES))):
            missing.add(name if name == "postgres" else program)
            continue
        status, said = run(ground, source, name, script)
        if tools.denies and name in DELETING:
            tally.note(f"{name}, where deletions are denied", (status, said), lambda got: got[0] not in (0, "it takes too long"))
        else:
            tally.note(name, (status, said), lambda got: got[0] == 0)
    if missing:
        print("real: left out: " + " ".join(sorted(missing)))


def main():
    """The program: its exit status."""
    parser = argparse.ArgumentParser(description=__doc__)
    parser.add_argument("--server", required=True)
    parser.add_argument("--mount", required=True, type=shlex.split)
    parser.add_argument("--filters", default="")
    parser.add_argument("--denies", action="store_true", help="a filter denies each deletion")
    parser.add_argument("names", nargs="*", help="some of them, by a part of their names")
    tools = parser.parse_args()
    tally = Tally()
    with Ground(tally, tools, "below={host}", "cached", "keep", "mode=0755", "allow_other", patience=3600, alone=True) as ground:
        os.chmod(ground.room, 0o755)
        ground.attach(**dict(word.split("@") for word in tools.filters.split(",") if word))
        all_of(tally, tools, ground)
    print(f"real: {tally.passed} passed, {tally.failed} failed")
    return 1 if tally.failed else 0


if __name__ == "__main__":
    sys.exit(main())
