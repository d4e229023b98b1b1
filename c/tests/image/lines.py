#!/usr/bin/env python3
"""lines.py SOURCE A B : two files of lcov say the same of each line of that source that both know, and these are 80 at least."""
import re
import sys


def lines(path, source):
    known, here = {}, False
    with open(path) as text:
        for row in text:
            if row.startswith("SF:"):
                here = re.split(r"[/\\]", row.strip()[3:])[-1] == source
            elif here and row.startswith("DA:"):
                line, count = row[3:].split(",")
                known[int(line)] = int(count) > 0
    return known


a, b = (lines(path, sys.argv[1]) for path in sys.argv[2:])
common = sorted(set(a) & set(b))
different = [line for line in common if a[line] != b[line]]
print(f"{len(common)} lines, {len(different)} of them differ: {different}" if different or len(common) < 80 else "", end="")
sys.exit(bool(different) or len(common) < 80)
