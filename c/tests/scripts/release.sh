#!/usr/bin/env bash
# c/tests/scripts/release.sh : makes a release, and installs its package in a room where neither this checkout nor the kit is. There a new driver is built, played, explored and tested by CMake, a server and
# a mount run, pages and completions are read; then the package is taken off, and nothing is left of it. RELEASE is a release that is there already. It needs root, for the room is an overlay of this machine.
set -u
. "$(dirname "$0")/tally.sh" release
[ "$(id -u)" = 0 ] && command -v dpkg-deb > /dev/null && command -v cmake > /dev/null || {
    untried 'it needs root, dpkg-deb and cmake'
    exit
}
kit=$(dirname "$(dirname "$(readlink -f "$(command -v rt)")")")
release=${RELEASE:-}
if [ -z "$release" ]; then
    release=$room/release
    ./flt release "$release" || ./flt release "$release" --unproved
    tell $? 'a release'
fi
(cd "$release" && sha256sum --quiet -c SHA256SUMS)
tell $? 'its checksums'

# A driver's binary, where one can be made.
if [ "$(uname -m)" = x86_64 ] && command -v clang lld-link llvm-dlltool > /dev/null && [ -f /usr/x86_64-w64-mingw32/include/ddk/ntifs.h ]; then
    c/build.sh --image "$room/run" && RUN=$room/run "$tests/image/sys.sh" msvc "$room/kit" "$room/first.sys" $tests/misuse/first.c
    tell $? "a driver's binary, as it was built,"
else
    echo "release: no driver's binary is tried, since there is no clang with lld and headers of mingw-w64 here"
fi

# What is done in the room: each line is a test, by its name.
cat > "$room/script" <<'SCRIPT'
set -u
try() {
    name=$1
    shift
    if timeout 600 "$@" > /tmp/out 2>&1; then echo "passed $name"; else echo "failed $name: $(tail -n 5 /tmp/out | tr '\n' '|')"; fi
}
as_user() {
    try "$1" setpriv --reuid=65534 --regid=65534 --clear-groups env HOME=/tmp/home bash -euc "cd /tmp/home && $2"
}
mkdir -p /tmp/home && chown 65534:65534 /tmp/home
try 'there is no rt' bash -c '! command -v rt'
try 'it is installed' dpkg -i /tmp/kazdrin.deb
as_user 'its version' 'flt --version | grep -q "^Kazdrin [0-9]"'
as_user 'an example' 'flt example three_altitudes --explain | grep -q "asks for its postoperation"'
as_user 'a filter in Rattle' 'flt example own_filter | grep -q "^contexts born 1, cleaned 1, leaked references 0"'
as_user 'the usage of its programs' 'for name in fltc fltd own_server; do flt run $name --help | grep -q "^usage: $name " || exit 1; done; flt run fltscript --help | grep -q "flt script"'
as_user 'its own tests' 'flt test | grep -q "a sample is built"'
as_user 'an exploration of a script' 's=0; flt explore /usr/share/kazdrin/tools/scenarios/hold_detach.txt > found.flt || s=$?; [ $s = 5 ] && grep -q stuck found.flt'
as_user 'a command of checkouts is refused' 's=0; flt prepare 2> said || s=$?; [ $s = 2 ] && grep -q "needs a checkout" said'
as_user 'a new driver' 'flt new driver "my folder/counter" && cd "my folder/counter" && kazdrin-build run counter.c && ./run requests.txt > /dev/null'
as_user 'its schedules' 'cd "my folder/counter" && kazdrin-build --explore explored counter.c && ./explored --bound 1 schedules.txt | grep -q "told 0, races 0, stuck 0, crashed 0"'
as_user 'its tests by CMake' 'cd "my folder/counter" && KAZDRIN=/usr ./ci.sh | grep -q "100% tests passed"'
# The files for a CI service: their commands, but for what installs packages of the system.
commands() { sed -n 's/^ *- run: //p; /apt-get/d; s/^    - \(mkdir\|KAZDRIN\)/\1/p' "/tmp/$1"; }
for service in github gitlab; do
    commands $service.yml > /tmp/$service.sh
    as_user "the file for $service" "cp -R 'my folder/counter' $service && cd $service && rm -rf build && export RUNNER_TEMP=\$PWD KAZDRIN_TAR=file:///tmp/kazdrin.tar.gz && [ \$(wc -l < /tmp/$service.sh) = 2 ] && . /tmp/$service.sh && ls build/*.xml"
done
as_user 'random requests' 'cd "my folder/counter" && kazdrin-fuzz counter.c -- 50 7 | grep -q "50 sessions"'
as_user 'a mistake is told' 's=0; kazdrin-build first /tmp/first.c && ./first /tmp/first.txt > out || s=$?; [ $s = 5 ] && grep -q "TOLD KZ0151 .*first.c:12" out'
if [ -f /tmp/first.sys ]; then
    # Nothing but these is on its path: no compiler, no linker, no reader of debug information.
    mkdir /tmp/few
    for tool in sh bash env readlink dirname basename cat sed awk grep; do ln -s "$(command -v $tool)" /tmp/few/; done
    as_user 'no compiler is there' 'PATH=/tmp/few; ! command -v cc && ! command -v gcc && ! command -v clang && ! command -v make && ! command -v addr2line'
    as_user 'a binary' 's=0; PATH=/tmp/few /usr/bin/flt run /tmp/first.sys /tmp/first.txt > out || s=$?; [ $s = 5 ] && grep -q "TOLD KZ0151 .*first.c:12" out'
    as_user 'schedules of a binary' 'printf "load first\nattach first v0 f 100\nclient a: create v0 new a.secret; write \$ 0 61\nclient b: list 0\n" > s.txt; s=0; PATH=/tmp/few /usr/bin/flt run --explore /tmp/first.sys --bound 1 s.txt > out || s=$?; [ $s = 5 ] && grep -q "^    TOLD KZ0151" out'
    as_user 'a server of a binary' 'mkdir -p below && (PATH=/tmp/few /usr/bin/flt run --serve /tmp/first.sys below binary.sock > binary.out & echo $! > binary.pid); for i in 1 2 3 4 5 6 7 8 9; do [ -S binary.sock ] || sleep 0.3; done; fltc binary.sock load first && fltc binary.sock stop'
fi
as_user 'a server' 'mkdir -p files && (fltd files here.sock > server.out &) ; for i in 1 2 3 4 5 6 7 8 9; do [ -S here.sock ] || sleep 0.3; done; fltc here.sock load shift && fltc here.sock attach 0 0 s 100'
if [ -c /dev/fuse ] && [ -x /usr/bin/fltmount ]; then
    mkdir -p /tmp/mnt
    try 'a mount' bash -euc 'fltmount /tmp/home/here.sock /tmp/mnt -o below=/tmp/home/files && echo hello > /tmp/mnt/a && [ "$(cat /tmp/mnt/a)" = hello ] && [ "$(head -c 5 /tmp/home/files/a)" = ifmmp ] && umount /tmp/mnt'
fi
as_user 'a client in Python' 'PYTHONPATH=/usr/share/kazdrin/clients python3 /usr/share/kazdrin/clients/kazdrin.py here.sock > said; grep -q "^read *(0, 5, b.hello.)" said'
as_user 'the end of the server' 'fltc here.sock stop && sleep 1 && grep -q "leaks 0" server.out'
for page in 1/flt 1/fltd 1/fltc 1/fltmount 1/kazdrin-build 7/kazdrin-told 7/kazdrin-exit 7/kazdrin-first-driver 7/kazdrin-script 7/kazdrin-explore; do
    try "the man page ${page#*/}" bash -c "zcat /usr/share/man/man${page%/*}/${page#*/}.${page%/*}.gz | grep -q '^\.[TsS]'"
done
as_user 'completions of bash' 'source /usr/share/bash-completion/completions/flt; COMP_WORDS=(flt expl); COMP_CWORD=1; _flt; [ "${COMPREPLY[*]}" = "explain explore" ]'
if command -v zsh > /dev/null; then
    as_user 'completions of zsh' 'zsh -fc "autoload -Uz compinit; fpath=(/usr/share/zsh/site-functions \$fpath); compinit -u -D; [[ \$_comps[flt] = _flt ]] && words=(flt expl) CURRENT=2; compadd() { shift; print -l -- \$@ }; autoload +X _flt; _flt | grep -qx explore"'
fi
if command -v fish > /dev/null; then
    as_user 'completions of fish' 'fish -c "source /usr/share/fish/vendor_completions.d/flt.fish; complete -C \"flt expl\"" | grep -q "^explore"'
fi
try 'it is taken off' dpkg -r kazdrin
try 'nothing is left of it' bash -c '[ ! -e /usr/bin/flt ] && [ ! -e /usr/share/kazdrin ] && [ ! -e /usr/bin/fltmount ] && [ ! -e /usr/lib/cmake/Kazdrin ]'
SCRIPT

mkdir "$room/over" && mount -t tmpfs none "$room/over" && mkdir "$room"/over/{upper,work,root}
tell $? 'a place for the room'
trap 'umount -l "$room/over/root" "$room/over" 2> /dev/null; rm -rf "$room"' EXIT
unshare -m bash -c '
    set -e
    root=$1/over/root
    mount -t overlay overlay -o "lowerdir=/,upperdir=$1/over/upper,workdir=$1/over/work" "$root"
    for hidden in "$2" "$3"; do mkdir -p "$root$hidden"; mount -t tmpfs none "$root$hidden"; done
    mount --bind /dev "$root/dev"
    mount -t proc none "$root/proc"
    mount -t tmpfs none "$root/tmp"
    chmod 1777 "$root/tmp"
    cp "$4"/kazdrin_*.deb "$root/tmp/kazdrin.deb"
    cp "$4"/kazdrin-*.tar.gz "$root/tmp/kazdrin.tar.gz"
    cp docs/ci/*.yml "$root/tmp/"
    [ ! -f "$1/first.sys" ] || cp "$1/first.sys" "$1/first.pdb" "$root/tmp/"
    cp "$5"/misuse/first.c "$5"/requests/first.txt "$1/script" "$root/tmp/"
    chmod 644 "$root"/tmp/*.*
    exec env -i PATH=/usr/sbin:/usr/bin:/sbin:/bin LC_ALL=C.UTF-8 chroot "$root" bash /tmp/script
' bash "$room" "$kit" "$PWD" "$(cd "$release" && pwd)" "$tests" > "$room/said" 2>&1 || true
while read -r word name; do
    case $word in
    passed) tell 0 "$name" ;;
    failed) tell 1 "$name" ;;
    esac
done < "$room/said"
[ "$(grep -c '^passed \|^failed ' "$room/said")" -ge 25 ]
tell $? "all tests of the room were made: $(grep -v '^passed \|^failed ' "$room/said" | tail -n 3 | tr '\n' '|')"
finish
