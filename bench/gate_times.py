#!/usr/bin/env python3
"""Where a crate's first check spent its time, by kind of module, by function and by module.

Usage: gate_times.py CRATE/out/incremental [N]

First run `rt check --jobs 1` in the crate's folder over an emptied out/incremental, on a machine that does little else:
each module is written there when its check ends, so the time between two files is the time of the later one. Prints for
each of the three the N largest (20). `Proof` is a function's searches, the goals that have no written answer; `Lts` is
the borrow checker's part; `Answers` and `Invariants` are what is written. A `Proof` of 2 s and more is worth an answer.
"""

import collections
import os
import re
import sys

found = []
for at, _, names in os.walk(sys.argv[1]):
    found += [(os.stat(f"{at}/{it}").st_mtime, it) for it in names if it.endswith(".oantt")]
found.sort()
kinds, functions, modules = collections.Counter(), collections.Counter(), collections.Counter()
last = found[0][0] if found else 0
for time, name in found:
    name = re.sub(r"(\.decls)?\.oantt$", "", name)
    took, last = time - last, time
    kind = name.split(".")[-1]
    function = re.sub(r"^Rattle-\w+-(proofs|specs\.contracts|specs)\.", "", name)
    kinds[kind if kind[:1].isupper() else "(function)"] += took
    functions[re.sub(r"(\.[A-Z]\w*)+$", "", function)] += took
    modules[name] += took
top = int(sys.argv[2]) if len(sys.argv) > 2 else 20
for what, times in ("kinds", kinds), ("functions", functions), ("modules", modules):
    print(f"-- {what}")
    for name, took in times.most_common(top):
        print(f"{took:8.2f} {name}")
