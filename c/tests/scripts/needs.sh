#!/usr/bin/env bash
# Installs what c/tests/scripts/mount.sh needs, where it runs as root on Debian and reaches its packages; else it says what isn't here. It waits two minutes for another apt.
set -u
case ${1:-} in -h | --help) sed -n '2,/^[^#]/s/^#\( \|$\)//p' "$0"; exit ;; esac
missing=()
make -s -C "$(dirname "$0")/../.." fuse > /dev/null 2>&1 || missing+=(pkg-config libfuse3-dev)
command -v fusermount3 > /dev/null || missing+=(fuse3)
command -v sqlite3 > /dev/null || missing+=(sqlite3)
[ ${#missing[@]} != 0 ] || exit 0
words=(-q -y -o DPkg::Lock::Timeout=120 -o Acquire::Retries=0 -o Acquire::http::Timeout=20 -o Acquire::https::Timeout=20)
get() {
    DEBIAN_FRONTEND=noninteractive timeout 300 apt-get "${words[@]}" install --no-install-recommends "${missing[@]}" > /dev/null 2>&1
}
if [ "$(id -u)" = 0 ] && [ -e /etc/debian_version ] && command -v apt-get > /dev/null; then
    get || { timeout 300 apt-get "${words[@]}" update > /dev/null 2>&1 && get; } && exit 0
fi
echo "mount: these packages aren't here, and aren't available: ${missing[*]}"
