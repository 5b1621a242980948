#!/usr/bin/env bash
# How long plans that visit no state twice take, and in how much memory, beside a plain search over single states: hanoi with 6 discs
# (100 plans), sliding tiles on a board of 3 columns and 2 rows and gripper with 3 balls (1,000 plans each), tasks of
# bench/plan_tasks.py, by `symk plan --mode loopless` and by bench/loopless.cpp, which finds all reachable states and their distances
# to the goal first and then takes the same prefixes. Both programs are built first, then run in turn, five times each (`bash
# bench/loopless.sh TIMES` for another number). The costs of the plans and why the list ends must be the same on both sides; else
# the script ends. The time is that of the processor for a whole run, the memory the most that a run had in use. Each line has the
# medians; the last line is `loopless hanoi H tiles T gripper G memory M`: the ratios of the medians of times, ours by the plain
# search's, and the greatest ratio of the medians of memory.
set -eu
top=$(cd "$(dirname "$0")/.." && pwd)
work=$(mktemp -d)
trap 'rm -rf "$work"' EXIT
"$top/symk" build # where it isn't built
for program in loopless measure; do
    g++ -std=c++17 -O3 -o "$work/$program" "$top/bench/$program.cpp"
done
python3 - "$top" "$work" "${1:-5}" <<'PYTHON'
import os, re, statistics, subprocess, sys

top, work, times = sys.argv[1], sys.argv[2], int(sys.argv[3])
TASKS = (("hanoi", "hanoi 6", 100), ("tiles", "board 3 2 200", 1000), ("gripper", "gripper 3", 1000))
SIDES = {
    "symk": lambda task, k: [os.path.join(top, ".symk", "symk"), "plan", task, "--k", str(k), "--mode", "loopless"],
    "plain": lambda task, k: [os.path.join(work, "loopless"), task, str(k)],
}
COST = re.compile(rb"^(?:; cost = )?(\d+)(?: .*)?$", re.MULTILINE)
END = re.compile(rb"^(?:; )?(reached|exhausted)", re.MULTILINE)


def run(side, task, k):
    """The costs and the end that were printed, the seconds of the processor and the megabytes at most."""
    used = os.path.join(work, "used")
    with open(os.path.join(work, "list"), "wb") as out:
        subprocess.run([os.path.join(work, "measure"), used, *SIDES[side](task, k)], stdout=out, check=True)
    with open(used) as it:
        status, seconds, kilobytes = it.read().split()
    if status not in ("0", "10"):
        sys.exit(f"{side} {task}: status {status}")
    with open(os.path.join(work, "list"), "rb") as it:
        printed = it.read()
    listed = [int(cost) for cost in COST.findall(printed)], END.findall(printed)
    return listed, float(seconds), int(kilobytes) * 1024 / 1e6


paths, took, most, listed = {}, {}, {}, {}
for name, made, _ in TASKS:
    paths[name] = os.path.join(work, name + ".sas")
    with open(paths[name], "wb") as out:
        subprocess.run([sys.executable, os.path.join(top, "bench", "plan_tasks.py"), *made.split()], stdout=out, check=True)
for _ in range(times):
    for name, made, k in TASKS:
        for side in SIDES:
            told, seconds, megabytes = run(side, paths[name], k)
            if listed.setdefault(name, told) != told:
                sys.exit(f"{made}: {side} lists other costs")
            took.setdefault((name, side), []).append(seconds)
            most.setdefault((name, side), []).append(megabytes)
print("| task | plans | first | last | end | symk | plain | symk | plain |\n|---|---|---|---|---|---|---|---|---|")
ratios, memory = [], 0.0
for name, made, _ in TASKS:
    costs, end = listed[name]
    seconds = [statistics.median(took[name, side]) for side in SIDES]
    megabytes = [statistics.median(most[name, side]) for side in SIDES]
    row = [made, len(costs), costs[0], costs[-1], end[0].decode(), *[f"{s:.3f} s" for s in seconds], *[f"{m:.1f} MB" for m in megabytes]]
    print("| " + " | ".join(map(str, row)) + " |")
    ratios.append(f"{name} {seconds[0] / max(seconds[1], 1e-3):.1f}")
    memory = max(memory, megabytes[0] / megabytes[1])
print(f"loopless {' '.join(ratios)} memory {memory:.1f}")
PYTHON
