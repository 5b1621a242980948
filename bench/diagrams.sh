#!/usr/bin/env bash
# How fast the operations on decision diagrams are beside BuDDy: the works of crates/bdd_bench and of bench/diagrams.cpp, which
# do the same on the same levels. Both are built first (BuDDy is Debian's libbdd-dev, installed where it isn't there), then run in
# turn, fifteen times each (`bash bench/diagrams.sh TIMES CACHE` for other numbers of turns and of results in the cache than 15 and
# 65,536, the planner's own, which gives each sort of calls up to 65,536 places, as many as a cache of BuDDy's has here); a run whose
# counts differ from the other side's ends the script. The time is that of the processor, so that other work on
# the machine is not counted, less that of a work of one step. BuDDy collects its table when it is full; the works of the other side
# that go in rounds collect theirs after a round that left it as large. Each line has the medians in milliseconds, the least and the
# greatest ratio of a turn, and how often each side collected. The last line is `diagrams queens Q switches S sliding L gripper G`,
# the ratios of the medians: Rattle's time by BuDDy's.
set -eu
top=$(cd "$(dirname "$0")/.." && pwd)
. "$top/bench/buddy.sh"
g++ -O3 -o "$work/buddy" "$top/bench/diagrams.cpp" -lbdd
(cd "$top/crates/bdd_bench" && rt run -- queens 5 8192) >"$work/build.log" 2>&1 || { tail -n 20 "$work/build.log" >&2; exit 70; }
cp "$top/crates/bdd_bench/out/bdd_bench" "$work/rattle"
cd "$work"
python3 - "$work" "${1:-15}" "${2:-65536}" <<'PYTHON'
import os, resource, statistics, subprocess, sys

work, times = sys.argv[1], int(sys.argv[2])
WORKS = (("queens", 9), ("switches", 20), ("sliding", 3), ("gripper", 20))
CACHE = sys.argv[3]  # dear results that the one side may hold, and places of a sort that it has at most; each cache of the other has 65,536


def used():
    """The seconds of the processor that the programs run so far took."""
    usage = resource.getrusage(resource.RUSAGE_CHILDREN)
    return usage.ru_utime + usage.ru_stime


def run(side, kind, size):
    """The counts that the program prints, the seconds of the processor that it took, and how often it collected."""
    before = used()
    words = [kind, str(size)] + ([CACHE] if side == "rattle" else [])
    done = subprocess.run([os.path.join(work, side), *words], stdout=subprocess.PIPE, stderr=subprocess.PIPE)
    took = used() - before
    if done.returncode != 0:
        sys.exit(f"{side} {kind} {size}: status {done.returncode}")
    return done.stdout.decode().strip(), took, int(done.stderr.split()[-1])


def start(side):
    """The least time of a board of one square: that of the program's start and of its first table."""
    return min(run(side, "queens", 1)[1] for _ in range(times))


empty = {side: start(side) for side in ("rattle", "buddy")}
ratios = []
for kind, size in WORKS:
    turns = []
    for _ in range(times):
        rattle, rattle_took, rattle_collected = run("rattle", kind, size)
        buddy, buddy_took, buddy_collected = run("buddy", kind, size)
        if rattle != buddy:
            sys.exit(f"{kind} {size}: `{rattle}` by Rattle, `{buddy}` by BuDDy")
        turns.append((rattle_took - empty["rattle"], buddy_took - empty["buddy"]))
    ours, theirs = (statistics.median(t[i] for t in turns) for i in (0, 1))
    each = sorted(r / b for r, b in turns)
    print(f"{kind} {size} {rattle} rattle-ms {ours * 1e3:.1f} buddy-ms {theirs * 1e3:.1f} ratios {each[0]:.2f} to {each[-1]:.2f}"
        f" collected {rattle_collected} and {buddy_collected}")
    ratios.append(f"{kind} {ours / theirs:.2f}")
print("diagrams " + " ".join(ratios))
PYTHON
