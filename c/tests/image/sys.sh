#!/usr/bin/env bash
# sys.sh msvc|mingw ROOM OUT.sys SOURCE.. : makes a driver's binary of its source: by clang for the target of Microsoft's compiler and lld-link, with a .pdb beside it; or by gcc of mingw-w64
# and its linker, with DWARF. ROOM is a folder where headers and import libraries are made once, for the program RUN, whose calls are what the libraries export. WORDS are more words for the
# compiler; without LEVEL it is -O0, as a Debug build is.
set -eu
case ${1:-} in -h | --help) sed -n '2,/^[^#]/s/^#\( \|$\)//p' "$0"; exit ;; esac
kind=$1
room=$2
out=$3
shift 3
here=$(cd "$(dirname "$0")" && pwd)
mingw=/usr/x86_64-w64-mingw32
include=$here/../../include

headers() {
    python3 "$here/kit.py" "$include" $mingw/include/ddk "$room/made"
    mv "$room/made" "$room/include"
}

# Import libraries: what the program has, and what mingw-w64 knows of the kernel's beside that.
DATA=(IoFileObjectType PsProcessType PsThreadType ExEventObjectType SeTokenObjectType IoDriverObjectType MmHighestUserAddress MmUserProbeAddress SeExports PsInitialSystemProcess NtBuildNumber
    KdDebuggerEnabled KdDebuggerNotPresent)
libraries() {
    local name
    nm "$RUN" | sed -n 's/.* [tT] kz_stub_//p' | sort -u > "$room/exports"
    { printf 'LIBRARY FLTMGR.SYS\nEXPORTS\n'; grep '^Flt' "$room/exports"; } > "$room/fltmgr.def"
    {
        printf 'LIBRARY ntoskrnl.exe\nEXPORTS\n'
        { grep -v '^Flt' "$room/exports"; x86_64-w64-mingw32-nm $mingw/lib/libntoskrnl.a 2> /dev/null | awk '$2 == "T" { print $3 }'; echo RtlInitUnicodeStrings; } |
            grep -vE "^($(IFS='|'; echo "${DATA[*]}")|_head.*|.*_iname)$" | sort -u
        printf '%s DATA\n' "${DATA[@]}"
    } > "$room/ntoskrnl.def"
    for name in fltmgr ntoskrnl; do
        case $kind in
        msvc) llvm-dlltool -m i386:x86-64 -d "$room/$name.def" -l "$room/$name.lib" ;;
        mingw) x86_64-w64-mingw32-dlltool -m i386:x86-64 -d "$room/$name.def" -l "$room/lib$name-kit.a" ;;
        esac
    done
    touch "$room/$kind.made"
}
mkdir -p "$room"
[ -d "$room/include" ] || headers
[ -f "$room/$kind.made" ] || libraries

read -r -a words <<< "${LEVEL:--O0} ${WORDS:-}"
words+=(-g -fno-builtin -Werror=implicit-function-declaration -D_AMD64_ -D_WIN32_WINNT=0x0A00 -DNTDDI_VERSION=0x0A000002 -D_KERNEL_MODE=1 -DPOOL_NX_OPTIN=1 -DDBG=1 -DKERNEL -DALLOC_PRAGMA -D__CRT_STRSAFE_IMPL)
# Headers of mingw-w64 want to see gcc; the code is that of Microsoft's conventions all the same.
msvc=(--target=x86_64-pc-windows-msvc -fms-extensions -fms-compatibility-version=0 -fgnuc-version=4.8.0 -U_MSC_VER -D__MINGW32__=1 -D__MINGW64__=1 -D__MSVCRT__=1 -D__CRT__NO_INLINE -D__mingw_vsnwprintf=_vsnwprintf
    -D_MSC_EXTENSIONS_SEH -gcodeview -Wno-everything -Werror=implicit-function-declaration -nostdinc -isystem "$(clang -print-resource-dir 2> /dev/null)/include")
# Neither compiler takes the pragma that puts functions into sections: it is a declaration of each here, on its line. What WPP's preprocessor makes is kzwpp.h.
placed() {
    awk -v path="$1" 'BEGIN { print "#line 1 \"" path "\"" }
        /^#pragma alloc_text/ {
            gsub(/^#pragma alloc_text *\(| |\).*$/, "")
            count = split($0, names, ",")
            for (at = 2; at <= count; at++) printf "extern __typeof__(%s) %s __attribute__((section(\"%s\"))); ", names[at], names[at], names[1]
            $0 = ""
        }
        /^#include ".*\.tmh"$/ { $0 = "#include <kzwpp.h>" }
        { print }' "$1"
}
objects=()
for source in "$@"; do
    name=$(basename "$source")
    object=$out.$name.o
    objects+=("$object")
    case $source in
    *.rs)
        "${RUSTC:-rustc}" --target x86_64-pc-windows-gnu --crate-type staticlib -C panic=abort -O -g -o "$object" "$source"
        continue
        ;;
    esac
    case $source in
    *.cpp) language=(-x c++ -std=c++17 -fno-exceptions -fno-rtti) ;;
    *) language=(-x c -std=gnu11) ;;
    esac
    case $kind in
    msvc) clang "${language[@]}" "${words[@]}" "${msvc[@]}" -isystem "$room/include" -isystem $mingw/include/ddk -isystem $mingw/include -iquote "$(dirname "$source")" -c -o "$object" - < <(placed "$source") ;;
    mingw)
        gcc=x86_64-w64-mingw32-gcc
        case $source in *.cpp) gcc=x86_64-w64-mingw32-g++ ;; esac
        $gcc "${language[@]}" "${words[@]}" -gdwarf-4 -w -Werror=implicit-function-declaration -isystem "$room/include" -isystem $mingw/include/ddk -iquote "$(dirname "$source")" -c -o "$object" - < <(placed "$source")
        ;;
    esac
done
case $kind in
msvc) lld-link /nologo /driver /section:INIT,ERD /subsystem:native /entry:DriverEntry /nodefaultlib /debug "/pdb:${out%.sys}.pdb" "/out:$out" "${objects[@]}" "$room/fltmgr.lib" "$room/ntoskrnl.lib" ;;
mingw) x86_64-w64-mingw32-gcc -nostdlib -shared -Wl,--subsystem,native -Wl,--entry,DriverEntry -Wl,--exclude-all-symbols -o "$out" "${objects[@]}" -L"$room" -lfltmgr-kit -lntoskrnl-kit ;;
esac
# A linker of mingw-w64 has no word for it: INIT is discarded, as the kit's projects ask of theirs.
if [ "$kind" = mingw ] && x86_64-w64-mingw32-objdump -h "$out" | grep -q ' INIT '; then
    x86_64-w64-mingw32-objcopy --set-section-flags INIT=alloc,load,code,readonly,debug "$out"
fi
rm -f "${objects[@]}"
