#!/usr/bin/env bash
# c/tests/scripts/check.sh [PART ..] (make -C c check PART='..') : the tests of the C half, all or those of some parts:
#
#   host      the host: stored requests through drivers, expectations, reports, CMake, random requests
#   legal     right drivers, of which nothing is reported: in order, under every schedule, by threads
#   coverage  which lines of a driver ran: of its source and of both kinds of binaries, through a crash, schedules, threads
#   misuse    drivers with mistakes, under threads and schedules
#   explore   schedules
#   sound     what the default search leaves out, by the ends of --whole: all scenarios, and random ones
#   spread    a search in parts, by jobs, by GNU parallel and by shards, and one that is interrupted
#   threads   drivers under real threads
#   names     names, and major functions without a kind of their own: compared with a model, under schedules and refusals, by threads
#   paging    volumes that cache: compared with a list of bytes, under schedules and refusals, by threads
#   programs  samples with programs, threads, processes: schedules, refusals, threads
#   cache     what is built without proofs, and who takes it from where: by stand-ins of the kit
#   script    scripts above the archive, and threads of scenarios in every order
#   order     the lists that all managers are held to
#   image     binaries of drivers, by the toolchains that are here: each sample compared with what its source prints, exceptions, files that can't run, changed files
#   headers   constants, structures and prototypes compared with those of mingw-w64, if its headers are there: by its name alone, and in thorough.sh
#   conformance  suites of Debian's source packages, as drivers: by its name alone, where the packages can be had
#   mount     the mount above fltd
#   serve     the server of drivers: the same frames as fltd, and the mount above it
#
# Each part says 'PART: N passed, M failed', and 'C: ..' the sum. The exit status says whether any failed. Without a C compiler it says so and tries nothing.
# Where all has to be tried (KAZDRIN_WHOLE, which .ci/run sets) a part with fewer tests than it has fails: so a list that came out empty isn't well.
# KAZDRIN_LIB is the manager's archive, as for c/build.sh; FLTD the server for mount and serve (else that of crates/fltd/out, or one without proofs).
set -u
case ${1:-} in -h | --help) sed -n '2,/^[^#]/s/^#\( \|$\)//p' "$0"; exit ;; esac
here=$(cd "$(dirname "$0")" && pwd)
for tool in "${CC:-cc}" objcopy make; do
    command -v "${tool%% *}" > /dev/null || {
        echo "C: not tried, since there is no $tool here"
        [ -z "${KAZDRIN_WHOLE:-}" ]
        exit
    }
done
if [ -z "${KAZDRIN_LIB:-}" ]; then
    KAZDRIN_LIB=$here/../../../crates/kazdrin_c/out/libkazdrin_c.a
    [ -f "$KAZDRIN_LIB" ] || KAZDRIN_LIB=$("$here/../../archive.sh" --unproved) || exit 1
    export KAZDRIN_LIB
fi
# All are those that this file's head names, but for headers and conformance.
mapfile -t usual < <(sed -n 's/^#   \([a-z]*\)  .*/\1/p' "$0" | grep -vx -e headers -e conformance)
[ $# -gt 0 ] || set -- "${usual[@]}"
passed=0
failed=0

# How many tests a part has at least where each tool is there.
least() {
    case $1 in
        host) echo 125 ;;
        legal) echo 105 ;;
        explore) echo 300 ;;
        sound) echo 150 ;;
        headers) echo 10000 ;;
        image) echo 60 ;; # with one of the toolchains
        cache) echo 20 ;;
        coverage) echo 13 ;; # without a toolchain for binaries
        misuse) echo 16 ;;
        names) echo 28 ;;
        paging) echo 7 ;;
        script) echo 47 ;;
        order) echo 200 ;;
        mount) echo 1250 ;;
        programs) echo 35 ;;
        serve) echo 1100 ;;
        spread) echo 22 ;;
        threads) echo 7 ;;
        *) echo 1 ;;
    esac
}
report=$(mktemp)
trap 'rm -f "$report"' EXIT
for part in "$@"; do
    [ -x "$here/$part.sh" ] || {
        echo "there is no part $part" >&2
        exit 2
    }
    begun=$SECONDS
    "$here/$part.sh" > "$report" 2>&1 || [ $? = 1 ] || echo "$part: 0 passed, 1 failed" >> "$report"
    cat "$report"
    echo "$part: $((SECONDS - begun)) s"
    tried=0
    while read -r more less; do
        passed=$((passed + more))
        failed=$((failed + less))
        tried=$((tried + more + less))
    done < <(sed -n 's/^[a-z]*: \([0-9]*\) passed, \([0-9]*\) failed.*/\1 \2/p' "$report")
    if [ -n "${KAZDRIN_WHOLE:-}" ] && [ "$tried" -lt "$(least "$part")" ] && ! grep -q "^$part: not tried" "$report"; then
        echo "$part: $tried tests, and it has $(least "$part") at least"
        failed=$((failed + 1))
    fi
done
echo "C: $passed passed, $failed failed"
[ "$failed" = 0 ]
