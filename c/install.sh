#!/usr/bin/env bash
# c/install.sh PREFIX (make -C c install PREFIX=..) : installs what a driver's test needs: the archive, the headers, the host's sources and its libraries for the compiler CC, the scripts
# that build programs of drivers, a package for CMake (find_package(Kazdrin)) and one for pkg-config. Nothing there names this checkout or the kit. KAZDRIN_LIB is the archive,
# else the proved one, else one without proofs.
set -eu
case ${1:-} in -h | --help) sed -n '2,/^[^#]/s/^#\( \|$\)//p' "$0"; exit ;; esac
here=$(cd "$(dirname "$0")" && pwd)
prefix=${1:?usage: c/install.sh PREFIX}
library=${KAZDRIN_LIB:-$here/../crates/kazdrin_c/out/libkazdrin_c.a}
[ -f "$library" ] || library=$("$here/archive.sh" --unproved)
support=$("$here/archive.sh" --support)
mkdir -p "$prefix/bin" "$prefix/lib/cmake/Kazdrin" "$prefix/lib/pkgconfig"
prefix=$(cd "$prefix" && pwd)
share=$prefix/share/kazdrin
mkdir -p "$share/lib" "$share/c/tests"
cp "$library" "$share/lib/libkazdrin_c.a"
cp "$support/libos_c.a" "$support/liblibc_c.a" "$share/lib/"
cp -Rp "$here/include" "$here/adapt" "$here/user" "$here/host" "$here/image" "$here/explore" "$here/orders" "$here/serve" "$here/wire" "$here/fuzz" "$here/gdb" "$here/Makefile" "$here/libraries.sh" "$here/build.sh" "$here/windows.sh" "$here/fuzz.sh" "$share/c/"
cp -Rp "$here/tests/scenarios" "$share/c/tests/"
mkdir -p "$share/docs" "$share/tools"
cp -p "$here/../tools/nearest.awk" "$share/tools/"
cp -p "$here/../docs/TOLD.md" "$share/docs/"
cp "$here/cmake/KazdrinConfig.cmake" "$prefix/lib/cmake/Kazdrin/"
ln -sf ../share/kazdrin/c/build.sh "$prefix/bin/kazdrin-build"
ln -sf ../share/kazdrin/c/fuzz.sh "$prefix/bin/kazdrin-fuzz"

# Its libraries are those of this checkout: their times say that they are newer than the sources.
mkdir -p "$share/out/c"
host=$(CFLAGS='' "$here/libraries.sh")
cp -Rp "$host" "$share/out/c/"
cp "$host/libkazdrin_host.a" "$share/lib/"
cat > "$prefix/lib/pkgconfig/kazdrin.pc" <<'PC'
prefix=${pcfiledir}/../..
share=${prefix}/share/kazdrin
Name: kazdrin
Description: A user-mode model of the Windows Filter Manager, for minifilters in C
Version: @VERSION@
Cflags: "-I${share}/c/include" -fshort-wchar -fno-strict-aliasing
Libs: "-L${share}/lib" -lkazdrin_host -lkazdrin_c -los_c -llibc_c
PC
sed -i "s/@VERSION@/$(cat "$here/../VERSION")/" "$prefix/lib/pkgconfig/kazdrin.pc"
echo "installed in $prefix"
