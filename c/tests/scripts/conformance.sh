#!/usr/bin/env bash
# conformance.sh [SUITE ..] : tests that others verified on Windows, of Debian's source packages, which are fetched as it runs: nothing of them stands here. Each is compiled with what
# c/tests/conformance has for it, and runs as a driver. What isn't met has to stand in exceptions.txt, with its reason, and what stands there has to be needed.
set -u
. "$(dirname "$0")/tally.sh" conformance
own=$PWD/$tests/conformance
wine=$("$own/fetch.sh" wine dlls/ntdll/tests dlls/ntoskrnl.exe/tests include 2> /dev/null) || {
    echo "conformance: not tried, since Debian's source packages can't be had"
    exit
}

# wine_suite NAME: one of ntdll's, whose headers are all the adapter's, but for lists of numbers.
wine_suite() {
    local name=$1 folder=$room/$1/$1 include=$room/$1/include header
    mkdir -p "$folder" "$include/wine" "$include/ddk"
    cp "$own"/wine/*.[ch] "$folder"
    for header in winnls.h guiddef.h ip2string.h wine/asm.h wine/test.h wine/heap.h winbase.h winreg.h winternl.h winnt.h winuser.h winioctl.h ddk/wdm.h ddk/ntifs.h io.h ntdll_test.h; do
        echo '#include "suite.h"' > "$include/$header"
    done
    cp "$wine"/include/{winerror,rpcnterr,inaddr,in6addr}.h "$include"
    awk '/^#define [A-Z]/ { print "#ifndef " $2; print; print "#endif" }' "$wine/include/ntstatus.h" > "$include/numbers.h"
    awk -v cut=" $(sed -n "s/^cut $name \([^ ]*\).*/\1/p" "$own/exceptions.txt" | tr '\n' ' ') " -f "$own/cut.awk" "$wine/dlls/ntdll/tests/$name.c" > "$folder/$name.c"
    echo "load $name" > "$room/$name.txt"
    c/build.sh "-I$folder" "-I$include" "$room/$name.run" "$folder" > "$room/$name.built" 2>&1 || {
        grep -E 'error|undefined' "$room/$name.built" | head -n 20
        tell 1 "$name, as it was built,"
        return
    }
    timeout 300 "$room/$name.run" "$room/$name.txt" > "$room/$name.out" 2> /dev/null
    awk -v suite="$name" -f "$own/compare.awk" "$own/exceptions.txt" "$room/$name.out"
    tell $? "$name"
}

# samba_suite NAME: one of smb2's, as a program above the requests. The exceptions say which of its functions are left out, and which are its tests.
samba_suite() {
    local name=$1 folder=$room/$1 cut
    mkdir -p "$folder"
    cut=" $(sed -n "s/^cut $name \([^ ]*\).*/\1/p" "$own/exceptions.txt" | tr '\n' ' ') "
    {
        printf '#define SUITE "%s"\n#include "%s/samba/suite.h"\n#line 1\n' "$name.c" "$own"
        awk -v cut="$cut" -f "$own/samba/keep.awk" "$samba/source4/torture/smb2/$name.c"
        printf '#define SUITE_TESTS %s\n' "$(sed -n "s/^test $name \([^ ]*\) \([^|]*\) |.*/SUITE_TEST(\1, \2)/p" "$own/exceptions.txt" | tr '\n' ' ')"
        printf '#include "%s/samba/run.h"\n' "$own"
    } > "$folder/main.c"
    c/build.sh --main "$folder/main.c" "$folder/run" c/samples/nullfilter.c > "$folder/built" 2>&1 || {
        grep -E 'error|undefined' "$folder/built" | head -n 20
        tell 1 "$name, as it was built,"
        return
    }
    timeout 300 "$folder/run" > "$folder/out" 2> /dev/null
    awk -v suite="$name" -f "$own/compare.awk" "$own/exceptions.txt" "$folder/out"
    tell $? "$name"
}

[ $# -gt 0 ] || set -- rtlbitmap rtlstr rtl string large_int error time directory file sharemode rename delete-on-close mkdir lock
samba=$("$own/fetch.sh" samba source4/torture/smb2 2> /dev/null) || echo "conformance: without Samba's, since its source package can't be had"
for suite in "$@"; do
    case $suite in
    sharemode | rename | delete-on-close | mkdir | lock) [ -z "$samba" ] || samba_suite "$suite" ;;
    *) wine_suite "$suite" ;;
    esac
done
finish
