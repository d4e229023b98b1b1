#!/bin/sh
# What continuous integration runs. KAZDRIN is the folder where Kazdrin is installed.
set -eu
cd "$(dirname "$0")"
cmake -S . -B build -DCMAKE_PREFIX_PATH="${KAZDRIN:?the folder where Kazdrin is installed}"
cmake --build build
ctest --test-dir build --output-on-failure
