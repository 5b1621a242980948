#!/usr/bin/env bash
# How long one plan of each class takes: mode unordered on tasks with many steps that commute, and on others. The program is built first;
# `bash bench/unordered.sh TIMES OLD` runs each task TIMES times (by default 3), by it and, where it is named, by another built program OLD,
# in turn, with at most 60 seconds and 4 GB for a run; one that needs more isn't run again. The costs of the classes must be the same by
# both, and each list is checked by `symk check`; else the script ends. Tasks with k are asked for k classes; those with `all` for all classes
# of least cost (`--quality 100`, k of 1,000,000), and stand beside one plan of the task; `bash bench/unordered.sh TIMES "" list` takes the
# tasks of plan_list.txt, each with as many classes of least cost as its line says plans. Each line has the classes, the first and the last
# cost, and the medians of the seconds of the processor: of one plan, by OLD, and by the program; `-` stands for a run past the limits. The
# last line is `unordered tasks N ended E seconds T worst W late L`: how many end, the sum of their medians, the greatest ratio of the program's
# time to OLD's where both take a tenth of a second at least, and how many with classes of least cost alone take more than one plan and 2 s.
set -eu
top=$(cd "$(dirname "$0")/.." && pwd)
work=$(mktemp -d)
trap 'rm -rf "$work"' EXIT
"$top/symk" build # where it isn't built
python3 - "$top" "$work" "${1:-3}" "${2:-}" "${3:-}" <<'PYTHON'
import os, statistics, sys

top, work, times, old, listed = sys.argv[1], sys.argv[2], int(sys.argv[3]), sys.argv[4], sys.argv[5] == "list"
sys.path.insert(0, os.path.join(top, "bench"))
sys.dont_write_bytecode = True
from whole_runs import Runs

SOME = (("switches 12", 1000), ("switches 20", 1000), ("switches 30", 1000), ("logistics 3 3 4", 100), ("gripper 20", 100), ("hanoi 10", 100),
        ("visitall 5 5", 100), ("blocks 8", 100), ("psr 40", 100), ("board 3 3 200", 100), ("lights 4 4 5", 100), ("gripper 3", 50),
        ("lights 3 3 6", 20), ("blocks 4", 50), ("blocks 5 costs=1000", 50), ("logistics 3 2 3 costs=1000000", 100))
ALL = ("gripper 20", "hanoi 10", "board 3 3 200", "blocks 8", "logistics 3 3 4", "visitall 5 5", "sokoban 7 6 3 5 2", "psr 40", "roads 18 6",
       "switches 40", "psr 8")
PLAIN, LEAST = ("--mode", "unordered"), ("--mode", "unordered", "--quality", "100")
new = Runs(top, work)
sides = {"symk": new}
if old:
    sides["old"] = Runs(top, work)
    sides["old"].program = os.path.abspath(old)


def median(seconds):
    return "%.2f" % statistics.median(seconds) if seconds else "-"


def tasks_of_the_list():
    """The tasks of plan_list.txt with their numbers of plans, each once."""
    with open(os.path.join(top, "bench", "plan_list.txt")) as it:
        rows = [[cell.strip() for cell in line.split("|")] for line in it if not line.startswith("#")]
    return dict.fromkeys((made, int(k), LEAST) for _, made, k, _ in rows)


def run(side, path, k, flags):
    """The costs of what is listed and the seconds of one run; None past the limits."""
    done = sides[side].listed(path, k, "auto", *flags)
    return done and (new.costs_of(path, done[1]), done[2])


print("| task | k | classes | first and last cost | one plan | %ssymk |\n|---|---|---|---|---|%s---|" % ("old | " if old else "", "---|" if old else ""))
ended, total, worst, late = 0, 0.0, 0.0, 0
tasks = list(tasks_of_the_list()) if listed else [(name, k, PLAIN) for name, k in SOME] + [(name, "all", LEAST) for name in ALL]
for name, k, flags in tasks:
    path, costs, one = new.made(name), None, []
    took = {side: [] for side in sides}
    lost = set()
    for _ in range(times):
        first = run("symk", path, 1, ())
        one += [first[1]] if first else []
        for side in sides:
            done = None if side in lost else run(side, path, 1_000_000 if k == "all" else k, flags)
            if done is None:
                lost.add(side)
                continue
            if costs not in (None, done[0]):
                sys.exit(f"{name}: {side} lists other costs")
            costs = done[0]
            took[side].append(done[1])
    times_of = {side: [] if side in lost else seconds for side, seconds in took.items()}
    if times_of["symk"]:
        ended += 1
        total += statistics.median(times_of["symk"])
        late += flags == LEAST and one != [] and statistics.median(times_of["symk"]) > statistics.median(one) + 2
        if old and times_of["old"] and min(map(statistics.median, times_of.values())) >= 0.1:
            worst = max(worst, statistics.median(times_of["symk"]) / statistics.median(times_of["old"]))
    late += flags == LEAST and not times_of["symk"]
    ends = f"{costs[0]}, {costs[-1]}" if costs else "-"
    cells = [name, k, len(costs) if costs is not None else "-", ends, median(one), *[median(times_of[side]) for side in reversed(list(sides))]]
    print("| " + " | ".join(map(str, cells)) + " |", flush=True)
print("unordered tasks %d ended %d seconds %.1f worst %.2f late %d" % (len(tasks), ended, total, worst, late))
PYTHON
