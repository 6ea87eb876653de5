#!/usr/bin/env python3
"""best.py: lines of several builds of the benchmark on standard input, each ending in two times; prints each line once, with the best of each time."""
import sys

best = {}
for line in sys.stdin:
    *what, proved, yardstick = line.rstrip("\n").split("\t")
    times = (float(proved), float(yardstick))
    best[tuple(what)] = tuple(map(min, times, best.get(tuple(what), times)))
for what, times in best.items():
    print(*what, *("%.2f" % time for time in times), sep="\t")
