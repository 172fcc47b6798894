#!/usr/bin/env python3
"""The times of all rounds on the input: least and median of both forms in ns, and the median of their ratio."""
import statistics
import sys

times = {}
sums = {}
for line in sys.stdin:
    name, time, total = line.split()
    times.setdefault(name, []).append(float(time))
    sums.setdefault(name, set()).add(total)
for name in times:
    form, call = name.split("-")
    if form != "now":
        continue
    now = times[name]
    row = f"{call:8} now {min(now):6.1f} {statistics.median(now):6.1f}"
    if f"then-{call}" in times:
        then = times[f"then-{call}"]
        ratio = statistics.median(a / b for a, b in zip(now, then))
        agree = "" if sums[name] == sums[f"then-{call}"] else "  THE CHECKSUMS DIFFER"
        row += f"   before {min(then):6.1f} {statistics.median(then):6.1f}   ratio {ratio:.2f}{agree}"
    print(row)
