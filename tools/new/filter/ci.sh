#!/bin/sh
# What continuous integration runs. KAZDRIN is a checkout of Kazdrin, on a machine with the Rattle kit.
set -eu
cd "$(dirname "$0")"
"${KAZDRIN:?a checkout of Kazdrin}/flt" run "$PWD" requests.txt held.txt
"$KAZDRIN/flt" run "$PWD" --explore orders.txt
