#!/usr/bin/env python3
"""gate_time.py LOG: what the gate's order costs, from the log of `(time .ci/run) > LOG 2>&1` at the project's root;
gate_time.py LOG --order: crates.txt in a better one, all comments first, then the crates by level, families mixed.

`rt` proves the crates level by level (a crate's level is one above the highest of those that it stands on), in the
order of crates.txt, RT_JOBS at a time, and waits for each batch; then it tries the edits in the same way, crate by
crate. This adds up the batches on two processors, from the seconds that the log names. The better order starts from
falling times within each level and exchanges two crates of a level as long as that saves time.

It reads logs of the Rattle before the port; today's `rt ci` orders the crates itself and prints no seconds.
"""
import re
import sys

PROCESSORS = 2
log = open(sys.argv[1]).read()
times = {m[1]: int(m[2]) for m in re.finditer(r"^rt: (\w+) proved \((\d+) s\)", log, re.M)}
crates, head = {}, []
for line in open("crates.txt"):
    name, _, below = line.split("#")[0].partition(":")
    if name.strip():
        crates[name.strip()] = below.split()
    else:
        head.append(line)
edits = {c: [int(s) for s in re.findall(rf"^rt: must-fail {c}/.* (\d+) s\)$", log, re.M)] for c in crates}


def level(name):
    return 1 + max((level(d) for d in crates[name] if d in crates), default=-1)


def batches(seconds, jobs):
    groups = [seconds[i:i + jobs] for i in range(0, len(seconds), jobs)]
    return sum(max(max(g), sum(g) / PROCESSORS) for g in groups)


def cost(order, jobs=2):
    tried = [s for l in order for c in order[l] for s in edits[c]]
    return sum(batches([times[c] for c in order[l]], jobs) for l in order), batches(tried, jobs)


def better(order):
    order = {l: sorted(order[l], key=lambda c: -times[c]) for l in order}
    least, found = sum(cost(order)), True
    while found:
        found = False
        for l in order:
            for i in range(len(order[l])):
                for j in range(i):
                    order[l][i], order[l][j] = order[l][j], order[l][i]
                    if sum(cost(order)) < least:
                        least, found = sum(cost(order)), True
                    else:
                        order[l][i], order[l][j] = order[l][j], order[l][i]
    return order


levels = {}
for name in crates:
    levels.setdefault(level(name), []).append(name)
levels = {l: levels[l] for l in sorted(levels)}
if "--order" in sys.argv:
    best = better(levels)
    sys.stdout.writelines(head + [(c + ": " + " ".join(crates[c])).rstrip() + "\n" for l in best for c in best[l]])
    sys.exit()
for what, order in [("as it is", levels), ("better", better(levels))]:
    for jobs in (2, 3, 4):
        print("%s, %d jobs: proofs %.0f s, edits %.0f s" % (what, jobs, *cost(order, jobs)))
proofs, tries = sum(times.values()) / PROCESSORS, sum(sum(e) for e in edits.values()) / PROCESSORS
print(f"both processors always busy: proofs {proofs:.0f} s, edits {tries:.0f} s")
for l in levels:
    print(l, ", ".join(f"{c} {times[c]}" for c in levels[l]))
