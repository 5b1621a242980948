#!/usr/bin/env bash
# How fast images of sets of states are beside BuDDy, and in how much memory: the search for all states that the operators of four
# tasks reach, by crates/space_bench over the space of diagrams and by bench/images.cpp, which does the same on the same levels.
# The tasks are those of bench/image_tasks.py: gripper with 20 balls, the 3x3 tiles, a power net of 40 switches and breakers, and
# 40 switches. Both programs are built first (BuDDy is Debian's libbdd-dev, installed where it isn't there), then run in turn, five
# times each (`bash bench/images.sh TIMES` for another number of turns); a run whose rounds or goal differ from the other side's
# ends the script. The time is that of the processor for a whole run, so that other work on the machine is not counted, less that
# of a task of one switch. In each turn a quick task is run more than once, and the mean counts. The memory is the most that a run
# had in use. Each line has the medians in milliseconds and megabytes and the least and the greatest ratio of times of a turn. The
# last line is `images gripper G tiles T psr P switches S memory M`: the ratios of the medians of times, Rattle's by BuDDy's, and
# the greatest ratio of the medians of memory.
set -eu
top=$(cd "$(dirname "$0")/.." && pwd)
. "$top/bench/buddy.sh"
for task in "gripper 20" "tiles 3" "psr 40" "switches 40"; do
    python3 "$top/bench/image_tasks.py" $task >"$work/${task% *}.sas"
done
cp "$top/examples/one-switch.sas" "$work/start.sas"
g++ -std=c++17 -O3 -o "$work/buddy" "$top/bench/images.cpp" -lbdd
(cd "$top/crates/space_bench" && rt run -- diagrams "$work/start.sas") >"$work/build.log" 2>&1 ||
    { tail -n 20 "$work/build.log" >&2; exit 70; }
cp "$top/crates/space_bench/out/space_bench" "$work/rattle"
python3 - "$work" "${1:-5}" <<'PYTHON'
import os, statistics, subprocess, sys

work, times = sys.argv[1], int(sys.argv[2])
TASKS = (("gripper", 20), ("tiles", 3), ("psr", 40), ("switches", 40))
RUNS = {"start": 10, "gripper": 5, "tiles": 1, "psr": 1, "switches": 10}  # of a task in a turn
SIDES = {"rattle": ["diagrams"], "buddy": []}


def run(side, task):
    """What the program prints, the milliseconds of the processor that it took, and the megabytes that it had at most."""
    words = [os.path.join(work, side), *SIDES[side], os.path.join(work, task + ".sas")]
    child = subprocess.Popen(words, stdout=subprocess.PIPE, stderr=subprocess.DEVNULL)
    printed = child.stdout.read().decode().strip()
    _, status, usage = os.wait4(child.pid, 0)
    child.returncode = os.waitstatus_to_exitcode(status)
    if child.returncode != 0:
        sys.exit(f"{side} {task}: status {child.returncode}")
    return printed, (usage.ru_utime + usage.ru_stime) * 1e3, usage.ru_maxrss * 1024 / 1e6


def turn(task):
    """Of each side what it prints, its mean time and its most memory, over some runs of both by turns."""
    runs = {side: [] for side in SIDES}
    for _ in range(RUNS[task]):
        for side in SIDES:
            runs[side].append(run(side, task))
    if len({printed for side in SIDES for printed, _, _ in runs[side]}) != 1:
        sys.exit(f"{task}: `{runs['rattle'][0][0]}` by Rattle, `{runs['buddy'][0][0]}` by BuDDy")
    told = runs["buddy"][0][0]
    return told, {side: (statistics.mean(r[1] for r in runs[side]), max(r[2] for r in runs[side])) for side in SIDES}


took, most, told = ({task: [] for task, _ in TASKS} for _ in range(3))
for _ in range(times):
    _, start = turn("start")
    for task, _ in TASKS:
        told[task], used = turn(task)
        took[task].append([used[side][0] - start[side][0] for side in SIDES])
        most[task].append([used[side][1] for side in SIDES])
ratios, memory = [], []
for task, size in TASKS:
    ours, theirs = (statistics.median(side) for side in zip(*took[task]))
    our_most, their_most = (statistics.median(side) for side in zip(*most[task]))
    each = sorted(rattle / buddy for rattle, buddy in took[task])
    print(f"{task} {size} {told[task]} rattle-ms {ours:.1f} buddy-ms {theirs:.1f} ratios {each[0]:.2f} to {each[-1]:.2f} "
          f"rattle-megabytes {our_most:.1f} buddy-megabytes {their_most:.1f}")
    ratios.append(f"{task} {ours / theirs:.2f}")
    memory.append(our_most / their_most)
print("images " + " ".join(ratios) + f" memory {max(memory):.2f}")
PYTHON
