#!/usr/bin/env bash
# How long whole runs take, and in how much memory, beside a planner of the same kind on BuDDy, bench/peer. The tasks are those of
# bench/plan_list.txt, which bench/plan_tasks.py makes. Both programs are built first (BuDDy is Debian's libbdd-dev, installed where it
# isn't there), then run in turn, five times each (`bash bench/plan.sh TIMES` for another number, `bash bench/plan.sh TIMES SET..` for
# these sets of the list in place of `main large`), with at most 60 seconds and 6 GB for a run; a side that needs more isn't run again.
# In the set `wide`, where costs are drawn wide, the peer also searches by least costs from both ends, and the quicker of its two stands.
# Where both list, the costs of the plans and why the list ends must be the same; else the script ends. The time is that of the
# processor for a whole run, the memory the most that a run had in use. Each line has the medians and the ratio of the times, and `-`
# for a side that didn't end. The last but one has the tasks that the peer solved and the greatest ratio of memory, the last is
# `plan tasks N solved S ratio R worst W long L worst V`: how many tasks there are and how many we solve; over the tasks that both solve the
# geometric mean and the greatest of the ratios, our time by the peer's; and the same over the tasks that take both at least a quarter of a
# second, the peer's start, which is its time for one switch, taken off.
set -eu
top=$(cd "$(dirname "$0")/.." && pwd)
. "$top/bench/buddy.sh"
"$top/symk" build # where it isn't built
g++ -std=c++17 -O3 -o "$work/peer" "$top/bench/peer/peer.cpp" -lbdd
g++ -std=c++17 -O3 -o "$work/measure" "$top/bench/measure.cpp"
python3 - "$top" "$work" "${1:-5}" "${@:2}" <<'PYTHON'
import collections, math, os, re, resource, statistics, subprocess, sys

top, work, times, sets = sys.argv[1], sys.argv[2], int(sys.argv[3]), sys.argv[4:] or ["main", "large"]
PEER = [os.path.join(work, "peer")]
SIDES = {"symk": [os.path.join(top, ".symk", "symk")], "peer": PEER, "ranks": PEER}
BY = {"ranks": ["--by", "ranks"]}
LIMIT, MEMORY, LONG = 60, 6_000_000_000, 0.25
COST = re.compile(rb"^; cost = (\d+) ", re.MULTILINE)


def bound():
    resource.setrlimit(resource.RLIMIT_CPU, (LIMIT, LIMIT))
    resource.setrlimit(resource.RLIMIT_AS, (MEMORY, MEMORY))


def run(side, path, k, mode):
    """What is listed, the seconds of the processor and the megabytes at most; None past the limits."""
    used, listed = os.path.join(work, "used"), os.path.join(work, "list")
    words = [os.path.join(work, "measure"), used, *SIDES[side], "plan", path, "--k", k, "--mode", mode, *BY.get(side, [])]
    with open(listed, "wb") as out:
        subprocess.run(words, stdout=out, stderr=subprocess.DEVNULL, preexec_fn=bound, check=True)
    with open(used) as it:
        status, seconds, kilobytes = it.read().split()
    if status not in ("0", "10"):
        return None
    with open(listed, "rb") as it:
        printed = it.read()
    costs = [int(cost) for cost in COST.findall(printed)]
    return (status, costs), float(seconds), int(kilobytes) * 1024 / 1e6


def listed_tasks():
    """Of each task its name, its file, the number of plans and the mode; and which sides run it."""
    with open(os.path.join(top, "bench", "plan_list.txt")) as it:
        rows = [[cell.strip() for cell in line.split("|")] for line in it if not line.startswith("#")]
    for part, made, k, mode in rows:
        if part in sets:
            path = os.path.join(work, made.replace(" ", "-") + ".sas")
            with open(path, "wb") as out:
                subprocess.run([sys.executable, os.path.join(top, "bench", "plan_tasks.py"), *made.split()], stdout=out, check=True)
            yield (made, path, k, mode), ["symk", "peer", "ranks"] if part == "wide" else ["symk", "peer"]


def mean(numbers):
    return math.exp(statistics.mean(map(math.log, numbers))) if numbers else 0


tasks, runs, told, lost = dict(listed_tasks()), {}, {}, set()
for _ in range(times):
    for task in tasks:
        for side in tasks[task]:
            done = None if (task, side) in lost else run(side, *task[1:])
            if done is None:
                lost.add((task, side))
            elif told.setdefault(task, done[0]) != done[0]:
                sys.exit(f"{task[0]}: {side} lists other costs, or ends otherwise")
            else:
                runs.setdefault((task, side), []).append(done[1:])
print("| task | k | mode | plans | first and last cost | symk | peer | ratio | symk MB | peer MB |")
print("|---|---|---|---|---|---|---|---|---|---|")
start = statistics.median(run("peer", os.path.join(top, "examples", "one-switch.sas"), "1", "topk")[1] for _ in range(max(times, 3)))
ratios, longs, memory, solved = [], [], [0], collections.Counter()
for task in tasks:
    name, _, k, mode = task
    _, costs = told.get(task, (None, []))
    most = {side: [statistics.median(of) for of in zip(*runs[task, side])] for side in tasks[task] if (task, side) not in lost}
    peers = [most.pop(side) for side in ("peer", "ranks") if side in most]
    most.update({"peer": quickest for quickest in [min(peers, default=None)] if quickest})
    ratio = "-"
    if len(most) == 2:
        ratios.append(max(most["symk"][0], 1e-3) / max(most["peer"][0], 1e-3))
        memory.append(most["symk"][1] / most["peer"][1])
        if min(of[0] for of in most.values()) >= LONG:
            longs.append(most["symk"][0] / max(most["peer"][0] - start, 1e-3))
        ratio = f"{ratios[-1]:.2f}"
    shown = [[f"{most[side][i]:.{2 - 2 * i}f}" if side in most else "-" for side in ("symk", "peer")] for i in (0, 1)]
    ends = f"{costs[0]}, {costs[-1]}" if costs else "-"
    print("| " + " | ".join([name, k, mode, str(len(costs)), ends, *shown[0], ratio, *shown[1]]) + " |")
    solved.update(list(most))
print(f"peer solved {solved['peer']} greatest ratio of memory {max(memory):.2f}")
long = f"long {mean(longs):.2f} worst {max(longs, default=0):.2f}"
print(f"plan tasks {len(tasks)} solved {solved['symk']} ratio {mean(ratios):.2f} worst {max(ratios, default=0):.2f} {long}")
PYTHON
