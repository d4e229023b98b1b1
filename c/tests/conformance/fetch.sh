#!/usr/bin/env bash
# fetch.sh PACKAGE FOLDER.. : those folders of a Debian source package, and prints where they are: below out/conformance, once for each version. It ends with 1 where apt-get or the
# network isn't there. Its lists are its own: the machine's are neither read nor changed, but for the keys and the mirror. No more is looked up than the package.
set -eu
case ${1:-} in -h | --help) sed -n '2,/^[^#]/s/^#\( \|$\)//p' "$0"; exit ;; esac
package=$1
shift
room=$(cd "$(dirname "$0")/../../.." && pwd)/out/conformance
kept=$room/$package
[ ! -e "$kept/whole" ] || {
    echo "$kept"
    exit
}
command -v apt-get > /dev/null && [ -e /etc/debian_version ] && [ -e /usr/share/keyrings/debian-archive-keyring.gpg ] || exit 1
release=$(sed -n 's/^VERSION_CODENAME=//p' /etc/os-release)
mirror=$(sed -n 's/^URIs: *\([^ ]*\/debian\)\/* *$/\1/p' /etc/apt/sources.list.d/*.sources 2> /dev/null | head -n 1)
mkdir -p "$room/lists/partial" "$room/cache/archives/partial" "$kept"
echo "deb-src [signed-by=/usr/share/keyrings/debian-archive-keyring.gpg] ${mirror:-http://deb.debian.org/debian} $release main" > "$room/sources.list"
words=(-q -q -o Dir::State::lists="$room/lists" -o Dir::Cache="$room/cache" -o Dir::Etc::sourcelist="$room/sources.list" -o Dir::Etc::sourceparts=/dev/null
    -o Acquire::Retries=0 -o Acquire::http::Timeout=20 -o Acquire::https::Timeout=20 -o APT::Sandbox::User="$(id -un)")
cd "$kept"
[ -n "$(ls "$room"/lists/*Sources* 2> /dev/null)" ] || timeout 120 apt-get "${words[@]}" update > /dev/null 2>&1
timeout 300 apt-get "${words[@]}" source --download-only --tar-only "$package" > /dev/null 2>&1
wanted=()
for folder in "$@"; do wanted+=("*/$folder/*"); done
tar xf ./*.orig.tar.* --strip-components=1 --wildcards "${wanted[@]}"
rm -f ./*.orig.tar.*
touch whole
echo "$kept"
