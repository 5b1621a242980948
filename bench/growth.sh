#!/usr/bin/env bash
# How the time of operations on decision diagrams grows with the size of a work, beside BuDDy: works of crates/bdd_bench and of
# bench/diagrams.cpp, as bench/diagrams.sh runs them, each at growing sizes. Both programs are built first (BuDDy is Debian's
# libbdd-dev, installed where it isn't there), then run in turn, five times each (`bash bench/growth.sh TIMES` for another number);
# a run whose counts differ from the other side's ends the script. The time is that of the processor for a whole run, less that of
# a board of one square. It prints the table that bench/README.md keeps and bench/plot.py draws: medians in milliseconds.
set -eu
top=$(cd "$(dirname "$0")/.." && pwd)
. "$top/bench/buddy.sh"
g++ -O3 -o "$work/buddy" "$top/bench/diagrams.cpp" -lbdd
(cd "$top/crates/bdd_bench" && rt run -- queens 5 8192) >"$work/build.log" 2>&1 || { tail -n 20 "$work/build.log" >&2; exit 70; }
cp "$top/crates/bdd_bench/out/bdd_bench" "$work/rattle"
python3 - "$work" "${1:-5}" <<'PYTHON'
import os, resource, statistics, subprocess, sys

work, times = sys.argv[1], int(sys.argv[2])
WORKS = (("queens", (6, 7, 8, 9, 10)), ("switches", (12, 16, 20, 24, 28)), ("gripper", (5, 10, 15, 20, 25)))
SIDES = {"rattle": ["65536"], "buddy": []}  # dear results of the one side, and places of a sort at most; each cache of the other has 65,536


def run(side, kind, size):
    """What the program prints, and the milliseconds of the processor that it took."""
    before = resource.getrusage(resource.RUSAGE_CHILDREN)
    done = subprocess.run([os.path.join(work, side), kind, str(size), *SIDES[side]], stdout=subprocess.PIPE, stderr=subprocess.DEVNULL)
    after = resource.getrusage(resource.RUSAGE_CHILDREN)
    if done.returncode != 0:
        sys.exit(f"{side} {kind} {size}: status {done.returncode}")
    return done.stdout, (after.ru_utime - before.ru_utime + after.ru_stime - before.ru_stime) * 1e3


start = {side: min(run(side, "queens", 1)[1] for _ in range(times)) for side in SIDES}
print("| Work | size | Rattle ms | BuDDy ms |\n|---|---|---|---|")
for kind, sizes in WORKS:
    for size in sizes:
        took = {side: [] for side in SIDES}
        for _ in range(times):
            told = {side: run(side, kind, size) for side in SIDES}
            if told["rattle"][0] != told["buddy"][0]:
                sys.exit(f"{kind} {size}: {told}")
            for side in SIDES:
                took[side].append(max(told[side][1] - start[side], 0))
        print(f"| {kind} | {size} | {statistics.median(took['rattle']):.1f} | {statistics.median(took['buddy']):.1f} |", flush=True)
PYTHON
