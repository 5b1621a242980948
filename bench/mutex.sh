#!/usr/bin/env bash
# What mutex groups do to whole runs. The tasks state groups that hold (bench/plan_tasks.py makes them); each is listed by both
# searches that go backward, without `--mutex` and with it, and by `auto`, which heeds groups unasked, without the groups in the
# file and with them. The program is built first, then each run is made five times (`bash bench/mutex.sh TIMES` for another
# number), all in turn, with at most 60 seconds and 4 GB for each; a run that wants more is made once. The time is that of the
# processor, the memory the most that a run had in use. The costs of a task's plans must be the same in each run, and the list is
# checked by `symk check`; else the script ends. Each line has the cost of the first and the last plan, and the medians without
# groups and with them; `-` stands for a run that wanted too much. The last line is `mutex pairs N without A with B ratio R worst W`:
# how many pairs of runs there were, how many ended without groups and with them, and over the pairs of which both ended the
# geometric mean and the greatest of the times with groups by those without.
set -eu
top=$(cd "$(dirname "$0")/.." && pwd)
work=$(mktemp -d)
trap 'rm -rf "$work"' EXIT
"$top/symk" build # where it isn't built
python3 - "$top" "$work" "${1:-5}" <<'PYTHON'
import os, statistics, sys

top, work, times = sys.argv[1], sys.argv[2], int(sys.argv[3])
sys.path.insert(0, os.path.join(top, "bench"))
sys.dont_write_bytecode = True
from whole_runs import Runs

runs = Runs(top, work)
K = 10
MADE = ("blocks 6", "blocks 7", "blocks 8", "board 3 2 100", "board 3 3 200", "board 4 3 20", "board 4 4 12", "board 5 4 16")
MADE += ("gripper 20", "gripper 40", "logistics 3 3 4", "logistics 3 3 5")
SEARCHES = ("backward", "bidirectional", "auto")


def bare(path):
    """The file of the same task without its groups."""
    with open(path, encoding="ascii") as text:
        lines = text.read().splitlines(keepends=True)
    first = max(at for at, line in enumerate(lines) if line == "end_variable\n") + 1
    last = max(at for at, line in enumerate(lines) if line == "end_mutex_group\n") + 1
    with open(path + ".bare", "w", encoding="ascii") as text:
        text.writelines([*lines[:first], "0\n", *lines[last:]])
    return path + ".bare"


took, most, costs, lost = {}, {}, {}, set()
paths = {made: runs.made(made) for made in MADE}
without = {made: bare(paths[made]) for made in MADE}
keys = [(made, search, heeded) for made in MADE for search in SEARCHES for heeded in (False, True)]
for turn in range(times):
    for key in keys:
        made, search, heeded = key
        path = without[made] if search == "auto" and not heeded else paths[made]
        flags = ["--mutex"] if search != "auto" and heeded else []
        done = None if key in lost else runs.listed(path, K, search, *flags)
        if done is None:
            lost.add(key)
            continue
        _, printed, seconds, megabytes = done
        if turn == 0:
            listed = runs.costs_of(paths[made], printed)
            if costs.setdefault(made, listed) != listed:
                sys.exit(f"{made}: {search} lists other costs")
        took.setdefault(key, []).append(seconds)
        most.setdefault(key, []).append(megabytes)


def median(values, key, shown):
    return "-" if key in lost else format(statistics.median(values[key]), shown)


print("| task | k | search | first, last cost | seconds | with groups | MB | with groups |")
print("|---|---|---|---|---|---|---|---|")
ratios = []
for one, other in zip(keys[::2], keys[1::2]):
    made, search, _ = one
    ends = "{}, {}".format(*(costs[made][:1] + costs[made][-1:])) if costs.get(made) else "-"
    cells = [median(values, key, shown) for values, shown in ((took, ".2f"), (most, ".0f")) for key in (one, other)]
    print("| " + " | ".join([made, str(K), search, ends, *cells]) + " |")
    if not {one, other} & lost:
        ratios.append(statistics.median(took[other]) / statistics.median(took[one]))
ended = [sum(key not in lost for key in side) for side in (keys[::2], keys[1::2])]
mean, worst = (statistics.geometric_mean(ratios), max(ratios)) if ratios else (0, 0)
print(f"mutex pairs {len(keys) // 2} without {ended[0]} with {ended[1]} ratio {mean:.2f} worst {worst:.2f}")
PYTHON
