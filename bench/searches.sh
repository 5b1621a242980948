#!/usr/bin/env bash
# How long whole runs of the program take by each search, and in how much memory: it reads a task, lists its cheapest plans and says
# why the list ends. The tasks are the six larger examples and ten that bench/plan_tasks.py makes. The program is built first, then
# each run is made five times (`bash bench/searches.sh TIMES` for another number), all tasks in turn, with at most 60 seconds for each;
# a run that takes longer is made once. The time is that of the processor, the memory the most that a run had in use. The costs of a
# task must be the same by each search, and the list is checked by `symk check`; else the script ends. Each line has the status, the
# number of plans, the cost of the first and the last, and the medians; `-` stands for a run that took longer or wanted more memory
# than 4 GB. The last line is `searches runs N solved S seconds T`: how many runs of a task by a search there were, how many ended, and
# the sum of their medians.
set -eu
top=$(cd "$(dirname "$0")/.." && pwd)
work=$(mktemp -d)
trap 'rm -rf "$work"' EXIT
"$top/symk" build # where it isn't built
python3 - "$top" "$work" "${1:-5}" <<'PYTHON'
import os, statistics, sys

top, work, times = sys.argv[1], sys.argv[2], int(sys.argv[3])
sys.path.insert(0, os.path.join(top, "bench"))
sys.dont_write_bytecode = True
from whole_runs import Runs

runs = Runs(top, work)
EXAMPLES = (("blocks", 10), ("gripper", 10), ("hanoi", 10), ("logistics", 10), ("psr", 10), ("tiles", 10))
MADE = (("gripper 20", 10), ("hanoi 10", 10), ("board 3 3 200", 10), ("blocks 8", 10), ("logistics 3 3 4", 10),
        ("visitall 5 5", 10), ("psr 40", 20), ("lights 6 6 10", 100), ("roads 18 6", 100), ("switches 40", 1000))
SEARCHES = ("auto", "forward", "backward", "bidirectional")
tasks = [(f"{name} (example)", os.path.join(top, "examples", f"{name}.sas"), k) for name, k in EXAMPLES]
for made, k in MADE:
    tasks.append((made, runs.made(made), k))
took, most, told, costs, lost = {}, {}, {}, {}, set()
for turn in range(times):
    for name, path, k in tasks:
        for search in SEARCHES:
            key = name, search
            done = None if key in lost else runs.listed(path, k, search)
            if done is None:
                lost.add(key)
                continue
            status, printed, seconds, megabytes = done
            if turn == 0:
                listed = runs.costs_of(path, printed)
                if costs.setdefault(name, (status, listed)) != (status, listed):
                    sys.exit(f"{name}: {search} lists other costs")
                told[key] = status, len(listed), *(listed[:1] + listed[-1:] or ["-", "-"])
            took.setdefault(key, []).append(seconds)
            most.setdefault(key, []).append(megabytes)
total = 0.0
print("| task | k | search | status | plans | first | last | seconds | megabytes |\n|---|---|---|---|---|---|---|---|---|")
for name, _, k in tasks:
    for search in SEARCHES:
        key = name, search
        if key in lost:
            print(f"| {name} | {k} | {search} | - | - | - | - | - | - |")
            continue
        seconds = statistics.median(took[key])
        total += seconds
        row = [name, k, search, *told[key], f"{seconds:.2f}", f"{statistics.median(most[key]):.0f}"]
        print("| " + " | ".join(map(str, row)) + " |")
runs = len(tasks) * len(SEARCHES)
print(f"searches runs {runs} solved {runs - len(lost)} seconds {total:.1f}")
PYTHON
