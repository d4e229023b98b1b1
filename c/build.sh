#!/usr/bin/env bash
# c/build.sh [WORD..] PROGRAM DRIVER.. : builds a program that runs requests through those drivers. A driver is a file of C or C++, or a folder with such files; each is loaded by
# the name of its file or folder. Behind --driver, up to the next one, the files are one driver, by the name of the first. Behind --user they are a program that works with the
# driver: the request `start NAME` runs it (docs/C.md). The words:
#
#   --explore           a program that runs a scenario under every schedule (docs/EXPLORE.md)
#   --serve             a server of the drivers, behind the frames of docs/FRAMES.md
#   --image             a program that loads binaries of drivers too, those of its words that end with .sys; then no DRIVER has to be named (docs/BINARY.md)
#   --sanitize=WORDS    under these sanitizers of the compiler; `thread` watches the drivers alone
#   --coverage          a program that counts which lines of its drivers run, in PROGRAM.info, as lcov has it: each line has code of its own then
#   --main FILE         a main program of your own, above c/include/kzflt.h
#   --fuzz, --libfuzzer a program of random requests, as c/fuzz.sh makes it
#   -IFOLDER, -DNAME    a folder of headers, and a macro, of the drivers and the programs
#   --depfile FILE      writes a rule for make, of all files that the program is made of, headers too
#   --flags             builds nothing: prints the compiler's words for a driver, one a line, for editors; --flags=user prints those for a program behind --user
#
# CC is the compiler (cc), CXX that of C++ (c++), CFLAGS are more words for the drivers and the host, KZAPI what the drivers see (KZAPI="-DNTDDI_VERSION=0x06000000 -DDBG=0"),
# KAZDRIN_LIB the archive of crates/kazdrin_c (else that of c/archive.sh, or one without proofs). The host is compiled once for each CC and CFLAGS, and kept.
set -eu
case ${1:-} in -h | --help) sed -n '2,/^[^#]/s/^#\( \|$\)//p' "$0"; exit ;; esac
here=$(cd "$(dirname "$(readlink -f "$0")")" && pwd)
. "$here/windows.sh"
say() {
    echo "c/build.sh: $1" >&2
}
given=()
for word in "$@"; do
    word=$(linux_path "$word") || exit 2
    given+=("$word")
done
set -- ${given[@]+"${given[@]}"}
usage() {
    sed -n '2,3s/^# //p' "$here/build.sh" >&2
    exit 2
}
# no_word WORD: says that it is none of the words above, and which is nearest.
no_word() {
    sed -n '2,/^set/s/^#   \(-.*\)/\1/p' "$here/build.sh" | grep -oE '^--[a-z]+|, --[a-z]+' | tr -d ', ' | awk -v what=word -v typed="${1%%=*}" -v program=c/build.sh -f "$here/../tools/nearest.awk" >&2
    exit 2
}
kind=""
sanitizers=""
main=""
image=""
coverage=""
depfile=""
flags=""
own=()
while [ $# -gt 0 ]; do
    case "$1" in
    --explore | --serve | --fuzz | --libfuzzer) kind=${1#--} ;;
    --image) image=image ;;
    --coverage) coverage=yes ;;
    --sanitize=?*) sanitizers=${1#--sanitize=} ;;
    --main)
        [ $# -gt 1 ] || usage
        main=$2
        shift
        ;;
    --depfile)
        [ $# -gt 1 ] || usage
        depfile=$2
        shift
        ;;
    --flags | --flags=user) flags=$1 ;;
    -[ID]?*) own+=("$1") ;;
    --driver | [!-]*) break ;;
    *) no_word "$1" ;;
    esac
    shift
done
if [ -n "$flags" ]; then
    [ $# = 0 ] || usage
else
    [ $# -ge "$([ -n "$image" ] && echo 1 || echo 2)" ] && [ "$1" != --driver ] || usage
fi
if [ -n "$image" ] && [ "$(uname -m)" != x86_64 ]; then
    say "binaries of drivers run on x86-64 alone"
    exit 2
fi
program=${1:-}
[ $# = 0 ] || shift
# Another file that is there, or that is named as a source is, was meant as a driver: what is built would take its place.
is_program() {
    case $1 in *.[cChH] | *.cc | *.cpp | *.cxx | *.txt | *.[sS][yY][sS]) return 1 ;; esac
    [ ! -e "$1" ] || { [ -f "$1" ] && { [ ! -s "$1" ] || [ "$(head -c 4 "$1")" = $'\x7fELF' ]; }; }
}
[ -z "$program" ] || is_program "$program" || {
    say "$program isn't written, since it is no program: the program to be built is the first of the words, as in c/build.sh ./p driver.c"
    exit 2
}
cc=${CC:-cc}
cflags=${CFLAGS:-}
for tool in "${cc%% *}" objcopy; do
    command -v "$tool" > /dev/null || {
        say "there is no $tool here: drivers in C need a C compiler, make and binutils (Debian: apt install build-essential)"
        exit 2
    }
done
for word in "$@"; do
    case $word in
    --driver | --user) ;;
    *) [ -e "$word" ] || {
        say "there is no $word"
        exit 2
    } ;;
    esac
done
[ -z "$program" ] || [ -d "$(dirname "$program")" ] || {
    say "there is no folder $(dirname "$program") for the program"
    exit 2
}
is_clang() {
    $1 --version 2> /dev/null | grep -q clang
}
case " $cflags ${KZAPI:-} " in
*" -flto"*)
    say "-flto isn't available: names in a driver's object are changed behind the compiler, and a link-time optimizer would see them as they were"
    exit 2
    ;;
esac

# ---- Words for the compiler. A driver's warnings are its author's; pointers are taken as the kit's compiler takes them. What the kit's projects set is set.
host_cflags=$cflags
case "$sanitizers" in
"" | thread) ;;
*) host_cflags="$cflags -fsanitize=$sanitizers -fno-sanitize-recover=undefined" ;;
esac
includes=(-I"$here/include" "${own[@]}")
read -r -d '' -a host_words <<< "$host_cflags" || true
read -r -d '' -a api <<< "${KZAPI:-}" || true
common=(-fshort-wchar -fno-strict-aliasing -fno-omit-frame-pointer -O1 -g "${host_words[@]}")
machine=(-D_WIN64=1 -D_M_AMD64=100 -D_M_X64=100 -D_AMD64_=1 -D_WIN32_WINNT=0x0A00 -DWINVER=0x0A00 -DNTDDI_VERSION=0x0A000002)
driver=(-fwrapv -fno-delete-null-pointer-checks -fms-extensions "${common[@]}" "${machine[@]}" -DDBG=1 -D_KERNEL_MODE=1 -DKZ_DRIVER=1 -include ntdef.h "${api[@]}")
user=(-fwrapv -fms-extensions "${common[@]}" "-I$here/user" "-I$here/include" "${own[@]}" "${machine[@]}" -D_WIN32=1 -fno-builtin -include windows.h)
link=("${common[@]}")
renames=()
c_words=(-std=gnu11 -Wall -Wno-incompatible-pointer-types -Wno-int-conversion -Wno-unknown-pragmas -Wno-missing-braces)
if is_clang "$cc"; then volatiles=(-mllvm -tsan-distinguish-volatile=1); else volatiles=(--param=tsan-distinguish-volatile=1); fi
case "$flags" in
--flags) printf '%s\n' "${c_words[@]}" -Wno-multichar "${driver[@]}" "${includes[@]}" ;;
--flags=user) printf '%s\n' "${c_words[@]}" "${user[@]}" ;;
esac
[ -z "$flags" ] || exit 0

# ---- The host's libraries, by the compiler and its words, and the manager's archive: an installed tree has it. Where it has to be built they are compiled meanwhile.
room=$(mktemp -d)
trap 'rm -rf "$room"' EXIT
make_host() {
    local names
    read -r -a names <<< "host $kind $image"
    CC="$cc" CFLAGS="$host_cflags" "$here/libraries.sh" "${names[@]}" > "$room/host"
}
library=${KAZDRIN_LIB:-$here/../lib/libkazdrin_c.a}
[ -n "${KAZDRIN_LIB:-}" ] || [ -f "$library" ] || library=$here/../crates/kazdrin_c/out/libkazdrin_c.a
if [ -z "${KAZDRIN_LIB:-}" ] && [ ! -f "$library" ] && command -v rt > /dev/null; then
    make_host &
    making=$!
    library=$("$here/archive.sh" --unproved) || {
        status=$?
        wait
        exit "$status"
    }
    wait "$making"
elif [ -z "${KAZDRIN_LIB:-}" ] && [ ! -f "$library" ]; then
    "$here/archive.sh" --unproved # which says what is missing
    exit 1
elif [ ! -f "$library" ]; then
    say "there is no $library; make it by c/archive.sh, or name one as KAZDRIN_LIB"
    exit 1
else
    make_host
fi
host=$(cat "$room/host")
# What the archive needs of the kit.
support=$here/../lib
[ -f "$support/liblibc_c.a" ] || support=$("$here/archive.sh" --support)

libraries=("$host/libkazdrin_host.a")
# The explorer is behind the compiler's calls before each access of a driver's code; its addresses are those of the program's file.
case "$kind" in
explore)
    driver+=(-fsanitize=thread -fno-pie "${volatiles[@]}")
    # gcc's own library doesn't know barriers; the explorer does. What it makes of a copy of a known size by itself has no call before it.
    is_clang "$cc" || driver+=(-Wno-tsan -fno-builtin-memcpy -fno-builtin-memmove -fno-builtin-memset -fno-builtin-memcmp)
    link+=(-no-pie "-Wl,-z,now")
    libraries=("$host/libkazdrin_explore.a" "${libraries[@]}")
    renames=(memcpy:KzHookCopy memmove:KzHookMove memset:KzHookFill memcmp:KzHookCompare)
    ;;
libfuzzer)
    driver+=(-fsanitize=fuzzer-no-link)
    link+=(-fsanitize=fuzzer -no-pie)
    libraries=("$host/libkazdrin_libfuzzer.a" "${libraries[@]}")
    ;;
serve | fuzz) libraries=("$host/libkazdrin_$kind.a" "${libraries[@]}") ;;
esac
# The loader reads the words first: the program's main comes behind its own.
if [ -n "$image" ]; then
    libraries=("$host/libkazdrin_image.a" "${libraries[@]}")
    link+=("-Wl,--wrap=main")
fi
if [ "$sanitizers" = thread ]; then
    driver+=(-fsanitize=thread "${volatiles[@]}")
    link+=(-fsanitize=thread)
fi
# The C library's calls of wide text are the host's.
changes=()
for pair in "${renames[@]}" wcslen:KzWcslen wcsnlen:KzWcsnlen wcscmp:KzWcscmp wcsncmp:KzWcsncmp wcscpy:KzWcscpy wcsncpy:KzWcsncpy wcscat:KzWcscat wcsncat:KzWcsncat \
    wcschr:KzWcschr wcsrchr:KzWcsrchr wcsstr:KzWcsstr wcspbrk:KzWcspbrk wcsspn:KzWcsspn wcscspn:KzWcscspn wcscasecmp:KzWcsicmp wcsncasecmp:KzWcsnicmp \
    wmemset:KzWmemset wcstol:KzWcstol wcstoul:KzWcstoul swprintf:KzSwprintfRoom vswprintf:KzVsnwprintf towupper:KzTowupper towlower:KzTowlower; do
    changes+=(--redefine-sym "${pair%:*}=${pair#*:}")
done
# The drivers' code is in a section of its own: who calls whom there is looked for by it.
code_of() {
    objdump -h "$1" | awk '$2 ~ /^\.text(\.|$)/ { print "--rename-section=" $2 "=kz_text" }'
}
# The drivers' variables are in sections of their own. What leads to memory is looked for in these alone; and libFuzzer, which plays all sessions in one process, puts them back before each.
variables_of() {
    objdump -h "$1" | awk '$2 ~ /^\.data(\.|$)/ && $2 !~ /^\.data\.rel\.ro/ { print "--rename-section=" $2 "=kz_data,alloc,load,data,contents" } $2 ~ /^\.bss(\.|$)/ { print "--rename-section=" $2 "=kz_bss,alloc" }'
}

# What is told names the line of a driver that makes a call: calls of two lines aren't made one, and a call at a function's end leaves its frame there.
calls_of() {
    if is_clang "$1"; then
        calls=(-fno-optimize-sibling-calls -mllvm -simplifycfg-sink-common=false -mllvm -enable-tail-merge=false)
    else
        calls=(-fno-optimize-sibling-calls -fno-crossjumping -fno-tree-tail-merge)
    fi
}
calls_of "${CXX:-c++}"
calls_cxx=("${calls[@]}")
calls_of "$cc"

# A line of optimized code may have none of its own.
[ -z "$coverage" ] || driver+=(-O0)
# Bit fields lie as Microsoft's compiler has them, where the machine's compiler can do so.
if echo 'int a;' | $cc -mms-bitfields -x c -c -o /dev/null - 2> /dev/null; then
    driver+=(-mms-bitfields)
fi
# A function's frame is compared with the end of the kernel's stack before it is made (core/stack.c), where it is one as in a build for Windows: what is put into another function makes that one's no larger.
case "$kind$sanitizers: $cflags ${KZAPI:-} " in
*" -O0 "* | *" -fsanitize"*) ;;
":"*) if ! is_clang "$cc" && echo 'int a;' | $cc -fsplit-stack -x c -c -o /dev/null - 2> /dev/null; then driver+=(-fsplit-stack --param=large-stack-frame-growth=0); fi ;;
esac

# ---- Drivers: each a name and its files. All but its entry is its own, so that two drivers may use one name. As many are compiled at once as there are processors.
processors=$(nproc)
wait_for_one() {
    while [ "$(jobs -rp | wc -l)" -ge "$processors" ]; do wait -n || true; done
}
count=0
: > "$room/entries"
: > "$room/declarations"
# WPP's preprocessor makes a .tmh file of each source, with the trace functions that its project names: here they do nothing.
tracing() {
    local name
    while read -r name; do
        mkdir -p "$1.tmh/$(dirname "$name")"
        {
            echo '#include <kzwpp.h>'
            cat "$(dirname "$2")"/*.[chCH] "$(dirname "$2")"/*.cpp 2> /dev/null | sed -nE 's|^[[:space:]]*//[[:space:]]*FUNC[[:space:]]+([A-Za-z_][A-Za-z_0-9]*).*|\1|p' |
                sort -u | sed 's/.*/#undef &\n#define &(...) ((void)0)/'
        } > "$1.tmh/$name"
    done < <(grep -hoE '^[[:space:]]*#[[:space:]]*include[[:space:]]*"[^"]+\.tmh"' "$2" | sed 's/.*"\(.*\)"/\1/')
}
# A source with try blocks. Where a variable's life ends clang keeps where to go on, and a finally block that runs before a `return` would change that: there are no such marks. In C++ the whole source is
# compiled as KZ_TRIES has it for a function of C; and the words __try and __finally are those of its own library's headers, where a source has some.
blocks() {
    if ! grep -qsw KZ_TRIES "$1.adapted"/*; then
        :
    elif is_clang "$cc"; then
        words+=(-Xclang -disable-lifetime-markers)
    fi
}
blocks_cxx() {
    if grep -qE '^[[:space:]]*#[[:space:]]*include[[:space:]]*<[a-z_]+>' "$1"; then
        return
    fi
    words+=(-DKZ_SEH)
    if ! grep -qw __try "$1"; then
        :
    elif is_clang "${CXX:-c++}"; then
        words+=(-O0 -Xclang -disable-lifetime-markers)
    else
        words+=(-O0 -fno-split-stack)
    fi
}
# What an object is made of: its source, and each header that its compiler read, but for those that are made here.
needs() {
    [ -n "$depfile" ] || return 0
    printf '%s\n' "$2" > "$1.needs"
    sed -e ':a' -e 'N' -e '$!ba' -e 's/\\\n/ /g' "$1.d" | sed -e 's/^[^:]*: *//' -e 's/\\ /\x01/g' | tr -s ' ' '\n' | sed -e 's/\x01/ /g' -e 's/\$\$/$/g' -e 's/\\#/#/g' |
        { grep -v -F "$room/" || true; } >> "$1.needs"
}
compile() {
    local file words=("${driver[@]}" -MMD -MT object -MF "$1.d" -I"$1.tmh")
    tracing "$1" "$2"
    mkdir "$1.adapted"
    file=$("$host/adapt" "$1.adapted" "$2") || exit 1
    words+=(-fdebug-prefix-map="$1.adapted=$(cd "$(dirname "$2")" && pwd)")
    case "$2" in
    *.cpp | *.cc | *.cxx)
        blocks_cxx "$2"
        ${CXX:-c++} -std=gnu++17 -fno-exceptions -fno-rtti -w "${words[@]}" "${calls_cxx[@]}" "${includes[@]}" -iquote "$(dirname "$2")" -DDriverEntry="$3" -c -o "$1" "$file"
        ;;
    *)
        blocks "$1"
        $cc "${c_words[@]}" -Wno-multichar "${words[@]}" "${calls[@]}" "${includes[@]}" -iquote "$(dirname "$2")" -DDriverEntry="$3" -c -o "$1" "$file"
        ;;
    esac
    needs "$1" "$2"
}
# Calls of the C library that are linked here, and in no kernel.
no_kernel_has='malloc|calloc|realloc|free|exit|_exit|abort|printf|vprintf|fprintf|puts|putchar|fputs|fopen|fclose|fread|fwrite|fgets|getenv|system|sleep|usleep|time|clock|signal|pthread_create'
add_object() {
    local name=$1 number=$2 file object objects=() entry=kz_entry_$2 foreign variables
    shift 2
    for file in "$@"; do
        object="$room/${number}_$(basename "$file").o"
        compile "$object" "$file" "$entry"
        objects+=("$object")
    done
    $cc -nostdlib -r -o "$room/driver_$number.o" "${objects[@]}"
    if ! nm "$room/driver_$number.o" | grep -q " T $entry\$"; then
        say "$name has no DriverEntry"
        exit 1
    fi
    foreign=$(nm -u "$room/driver_$number.o" | sed -nE "s/^ +U ($no_kernel_has)\$/\1/p" | tr '\n' ' ')
    if [ -n "$foreign" ]; then
        say "$name calls what the kit's libraries don't have: $foreign"
        exit 1
    fi
    mapfile -t variables < <(variables_of "$room/driver_$number.o" && code_of "$room/driver_$number.o")
    objcopy --keep-global-symbol="$entry" "${changes[@]}" "${variables[@]}" "$room/driver_$number.o"
}
add() {
    local name=${1//\\/\\\\} entry=kz_entry_$count
    wait_for_one
    (
        trap '[ $? = 0 ] || touch "$room/failed"' EXIT
        add_object "$1" "$count" "${@:2}"
    ) &
    printf 'int %s(void *, void *);\n' "$entry" >> "$room/declarations"
    printf '{"%s", %s},\n' "${name//\"/\\\"}" "$entry" >> "$room/entries"
    count=$((count + 1))
}
name_of() {
    local name
    name=$(basename "$1")
    echo "${name%.*}"
}
# A driver's program: its console, its end and its streams are the host's.
programs=0
streams=()
for name in printf vprintf fprintf puts fputs putchar fputc fflush fopen fgets fgetc getchar exit; do
    streams+=(--redefine-sym "$name=KzUser$(printf %s "${name:0:1}" | tr '[:lower:]' '[:upper:]')${name:1}")
done
user_object() {
    local name=$1 number=$2 file object objects=() entry=kz_program_$2 main=main variables
    shift 2
    for file in "$@"; do
        object="$room/user_${number}_$(basename "$file").o"
        case "$file" in
        *.cpp | *.cc | *.cxx) ${CXX:-c++} -std=gnu++17 -fno-exceptions -fno-rtti -w "${user[@]}" -MMD -MT object -MF "$object.d" -c -o "$object" "$file" ;;
        *) $cc "${c_words[@]}" "${user[@]}" -MMD -MT object -MF "$object.d" -c -o "$object" "$file" ;;
        esac
        needs "$object" "$file"
        objects+=("$object")
    done
    $cc -nostdlib -r -o "$room/program_$number.o" "${objects[@]}"
    ! nm "$room/program_$number.o" | grep -q ' T wmain$' || main=wmain
    if ! nm "$room/program_$number.o" | grep -q " T $main\$"; then
        say "$name has no main"
        exit 1
    fi
    mapfile -t variables < <(variables_of "$room/program_$number.o")
    objcopy --redefine-sym "$main=$entry" "${streams[@]}" "${changes[@]}" "${variables[@]}" "$room/program_$number.o"
    objcopy --keep-global-symbol="$entry" "$room/program_$number.o"
    printf 'int %s(int, void *);\n' "$entry" >> "$room/declarations"
    printf '{"%s", %s, %s},\n' "$name" "$entry" "$([ "$main" = wmain ] && echo 1 || echo 0)" > "$room/program_$number.row"
}
add_user() {
    wait_for_one
    (
        trap '[ $? = 0 ] || touch "$room/failed"' EXIT
        user_object "$1" "$programs" "${@:2}"
    ) &
    programs=$((programs + 1))
}
while [ $# -gt 0 ]; do
    if [ "$1" = --driver ] || [ "$1" = --user ]; then
        word=$1
        shift
        files=()
        while [ $# -gt 0 ] && [ "$1" != --driver ] && [ "$1" != --user ]; do
            files+=("$1")
            shift
        done
        if [ ${#files[@]} = 0 ]; then
            say "no file behind $word"
            exit 2
        fi
        if [ "$word" = --driver ]; then
            add "$(name_of "${files[0]}")" "${files[@]}"
        else
            add_user "$(name_of "${files[0]}")" "${files[@]}"
        fi
    elif [ -d "$1" ]; then
        mapfile -d '' -t files < <(find "$1" -maxdepth 1 \( -name '*.c' -o -name '*.cpp' -o -name '*.cc' -o -name '*.cxx' \) -print0 | LC_ALL=C sort -z)
        if [ ${#files[@]} = 0 ]; then
            say "$1 has no file of C or C++"
            exit 2
        fi
        add "$(basename "$(cd "$1" && pwd)")" "${files[@]}"
        shift
    else
        add "$(name_of "$1")" "$1"
        shift
    fi
done
wait
[ ! -e "$room/failed" ] || exit 1
{
    cat "$room/declarations"
    table=kz_drivers
    [ -z "$image" ] || table=kz_linked_drivers
    echo "const struct { const char *name; int (*entry)(void *, void *); } ${table}[] = {"
    cat "$room/entries"
    echo "{0, 0}};"
    echo "const unsigned long ${table}_count = $count;"
    echo "const struct { const char *name; int (*entry)(int, void *); _Bool is_wide; } kz_programs[] = {"
    for ((at = 0; at < programs; at++)); do cat "$room/program_$at.row"; done
    echo "{0, 0, 0}};"
    echo "const unsigned long kz_programs_count = $programs;"
    [ -z "$coverage" ] || echo "const int kz_counts_lines = 1;"
    # gdb loads its words for the kit's types by itself, from a folder that its user trusts.
    case "$here" in
    *[\"\\]*) ;;
    *) printf '__asm__(".pushsection .debug_gdb_scripts, \\"MS\\", @progbits, 1\\n.byte 1\\n.asciz \\"%s\\"\\n.popsection");\n' "$here/gdb/kazdrin.py" ;;
    esac
} > "$room/drivers.c"
if [ -n "$main" ]; then
    $cc -std=gnu11 -Wall -Wextra "${common[@]}" "${includes[@]}" -I"$here/host" -I"$here" -c -o "$room/main.o" "$main"
    libraries=("$room/main.o" "${libraries[@]}")
fi
kit=("$support/liblibc_c.a")
[ ! -f "$support/libos_c.a" ] || kit=("$support/libos_c.a" "${kit[@]}")
others=()
[ "$count" = 0 ] || others=("$room"/driver_*.o)
[ "$programs" = 0 ] || others+=("$room"/program_*.o)
status=0
$cc "${link[@]}" -o "$program" "$room/drivers.c" "${others[@]}" "${libraries[@]}" "$library" "${kit[@]}" -pthread 2> "$room/said" || status=$?
cat "$room/said" >&2
missing=$(sed -n "s/.*undefined reference to [\`']\([A-Za-z_0-9]*\)'.*/\1/p" "$room/said" | sort -u | tr '\n' ' ')
[ -z "$missing" ] || say "neither in your sources nor in this kit: $missing(docs/PROFILE.md has what is)"
if [ "$status" = 0 ] && [ -n "$depfile" ]; then
    printf '%s\n' "$here/build.sh" "$library" "$host/libkazdrin_host.a" > "$room/all.needs"
    [ -z "$main" ] || printf '%s\n' "$main" >> "$room/all.needs"
    {
        printf '%s\n' "$program" | sed 's/[ #]/\\&/g; s/\$/$$/g; s/$/:/'
        LC_ALL=C sort -u "$room"/*.needs | sed 's/[ #]/\\&/g; s/\$/$$/g; s/^/ /'
    } | sed '$!s/$/ \\/' > "$depfile"
fi
exit "$status"
