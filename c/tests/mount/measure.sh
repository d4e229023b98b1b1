#!/usr/bin/env bash
# c/tests/mount/measure.sh SECONDS SERVER .. : fio over a raw folder, a bare FUSE pass-through (pass.c), and the mount of each server without a filter, with `shift`, and with pages that the kernel keeps.
# A table goes to standard output, in operations a second. All lies in memory. A server is fltd, or one of c/build.sh --serve with a driver `shift`. BEHIND are words in front of all, as `chrt -r 1`.
set -eu
case ${1:-} in -h | --help) sed -n '2,/^[^#]/s/^#\( \|$\)//p' "$0"; exit ;; esac
here=$(CDPATH='' cd -- "$(dirname -- "$0")" && pwd)
top=$here/../../..
[ $# -ge 2 ] || {
    sed -n '2,3s/^# //p' "$0" >&2
    exit 2
}
seconds=$1
shift
room=$(mktemp -d -p /dev/shm)
processes=()
end() {
    fusermount3 -u -z "$room/mount" 2> /dev/null || true
    [ ${#processes[@]} = 0 ] || kill "${processes[@]}" 2> /dev/null || true
    processes=()
    wait
}
trap 'end; rm -rf "$room"' EXIT
mkdir "$room/mount" "$room/raw"
make -s -C "$top/c" fltmount PROGRAM="$room/fltmount"
read -r -a fuse < <(pkg-config fuse3 --cflags --libs)
${CC:-cc} -std=gnu11 -O2 -o "$room/pass" "$here/pass.c" -pthread "${fuse[@]}"

until_so() {
    for _ in $(seq 100); do
        "$@" && return
        sleep 0.1
    done
    echo "it doesn't begin: $*" >&2
    exit 1
}

ask() {
    PYTHONPATH=$top/clients python3 -c "
import sys, kazdrin
with kazdrin.Client('$room/socket', 10) as client:
    for reply in $1:
        assert reply.status == 0, reply"
}

# A server over an empty folder, and a mount with these options.
begin() {
    rm -rf "$room/host" "$room/socket"
    mkdir "$room/host"
    ${BEHIND:-} "$server" "$room/host" "$room/socket" > /dev/null &
    processes=($!)
    until_so test -S "$room/socket"
    ${BEHIND:-} "$room/fltmount" "$room/socket" "$room/mount" -f "$@" &
    processes+=($!)
    until_so mountpoint -q "$room/mount"
}

# How many operations fio makes in a second.
rate() {
    ${BEHIND:-} fio --name=m --directory="$1" --rw="$2" --bs="$3" --numjobs="$4" --size=8m --runtime="$seconds" --time_based --ioengine=psync --fallocate=none --group_reporting --output-format=json 2> /dev/null |
        python3 -c 'import json, sys; job = json.load(sys.stdin)["jobs"][0]; print(round(job["read"]["iops"] + job["write"]["iops"]))'
}

row() {
    line="| $1 "
    for what in 'write 32k 1' 'read 32k 1' 'randread 4k 1' 'randwrite 4k 1' 'randread 4k 8' 'randwrite 4k 8'; do
        read -r way size jobs <<< "$what"
        line="$line| $(rate "$2" "$way" "$size" "$jobs") "
    done
    echo "$line|"
}

echo '| | write 32 KB | read 32 KB | read 4 KB | write 4 KB | read 4 KB, 8 jobs | write 4 KB, 8 jobs |'
echo '|---|---|---|---|---|---|---|'
row 'raw folder' "$room/raw"
mkdir "$room/host"
${BEHIND:-} "$room/pass" "$room/host" "$room/mount" -f &
processes=($!)
until_so mountpoint -q "$room/mount"
row 'bare pass-through' "$room/mount"
end
for server in "$@"; do
    name=$(basename "$server" | sed 's/-.*//')
    begin
    row "mount of $name, no filter" "$room/mount"
    end
    begin
    ask "[client.load('shift'), client.attach(0, 0, 's', '100')]"
    row "mount of $name, \`shift\`" "$room/mount"
    end
    begin -o cached
    ask "[client.load('shift'), client.attach(0, 0, 's', '100')]"
    row "mount of $name, \`shift\`, cached" "$room/mount"
    end
done
