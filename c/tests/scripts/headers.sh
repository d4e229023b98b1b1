#!/usr/bin/env bash
# The headers beside those of mingw-w64, where these are there.
. "$(dirname "$0")/tally.sh" headers
command -v python3 > /dev/null || { untried 'there is no python3 here'; exit; }
python3 c/tests/scripts/headers.py --can || {
    untried 'the headers of mingw-w64, or a compiler for them, are not here'
    exit
}
python3 c/tests/scripts/headers.py
