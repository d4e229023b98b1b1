#!/usr/bin/env bash
# c/fuzz.sh DRIVER.c.. [-- SESSIONS [SEED [FILE]]] : plays random requests through a driver, with calls that fail, under the address and undefined sanitizers where the compiler has them.
# The first session that ends otherwise than with 0 is shrunk to a file of requests (failure.txt), which any program of c/build.sh plays again.
#
# c/fuzz.sh --libfuzzer DRIVER.c.. [-- WORD..] : the same by clang's libFuzzer (Debian: libclang-rt-14-dev), which looks for requests that reach more of the driver's code; the words
# are its own (-runs=100000, -max_total_time=60, a folder for what it learns). What fails is written to failure.txt, and not shrunk.
set -eu
case ${1:-} in -h | --help) sed -n '2,/^[^#]/s/^#\( \|$\)//p' "$0"; exit ;; esac
here=$(cd "$(dirname "$(readlink -f "$0")")" && pwd)
way=own
if [ "${1:-}" = --libfuzzer ]; then
    way=libfuzzer
    shift
fi
drivers=()
while [ $# -gt 0 ] && [ "$1" != -- ]; do
    drivers+=("$1")
    shift
done
if [ ${#drivers[@]} = 0 ]; then
    echo "usage: c/fuzz.sh DRIVER.c.. [-- SESSIONS [SEED [FILE]]]  or  --libfuzzer DRIVER.c.. [-- WORD..]" >&2
    exit 2
fi
[ $# = 0 ] || shift
room=$(mktemp -d)
trap 'rm -rf "$room"' EXIT
own() {
    local sanitizers=()
    if [ -z "${CFLAGS:-}" ] && echo 'int main(void) { return 0; }' | ${CC:-cc} -fsanitize=address,undefined -x c -o "$room/sanitized" - 2> /dev/null; then
        sanitizers=("--sanitize=address,undefined")
    fi
    "$here/build.sh" --fuzz "${sanitizers[@]}" "$room/fuzz" "${drivers[@]}"
    "$room/fuzz" "$@"
}

libfuzzer() {
    export CC=${CC:-clang}
    if ! echo 'int LLVMFuzzerTestOneInput(const char *data, long size) { return data && size > 9; }' | $CC -fsanitize=fuzzer,address,undefined -x c -o "$room/sanitized" - 2> /dev/null; then
        echo "c/fuzz.sh: left out: libFuzzer, since $CC has no -fsanitize=fuzzer here" >&2
        exit 3
    fi
    local status=0
    "$here/build.sh" --libfuzzer --sanitize=address,undefined "$room/fuzz" "${drivers[@]}"
    "$room/fuzz" -max_len=2048 -len_control=0 -artifact_prefix="$room/" "$@" || status=$?
    for input in "$room"/crash-* "$room"/leak-* "$room"/timeout-* "$room"/oom-*; do
        [ -f "$input" ] || continue
        "$room/fuzz" -artifact_prefix="$room/" --requests=failure.txt "$input" > /dev/null 2>&1 || true
        echo "c/fuzz.sh: $(wc -l < failure.txt) requests in failure.txt"
        break
    done
    exit "$status"
}
"$way" "$@"
