#!/usr/bin/env bash
# What it costs to take a list from Python: 10,000 plans (`bash bench/python.sh TIMES K` for another number) of tasks of bench/plan_tasks.py,
# written to a file by the program, and through `plans(..)` of python/symk.py by loops that read every plan's cost, its names, or its
# operators. The program is built first; the time is by the clock, the median of TIMES turns (by default 9), each of which runs every one
# of them once. Each line has a task, the program's seconds, and the other three as multiples of these. The last line is
# `python cost C names N operators O kilobytes M`: the greatest multiple of each, and by how much the most memory that Python had taken
# grew from one plan to all.
set -eu
top=$(cd "$(dirname "$0")/.." && pwd)
work=$(mktemp -d)
trap 'rm -rf "$work"' EXIT
"$top/symk" build # where it isn't built
python3 - "$top" "$work" "${1:-9}" "${2:-10000}" <<'PYTHON'
import os, resource, statistics, subprocess, sys, time

top, work, times, k = sys.argv[1], sys.argv[2], int(sys.argv[3]), int(sys.argv[4])
program = os.environ["SYMK_PROGRAM"] = os.path.join(top, ".symk", "symk")
sys.path.insert(0, os.path.join(top, "python"))
import symk

READ = {"cost": lambda plan: plan.cost, "names": lambda plan: len(plan.names), "operators": lambda plan: len(plan.operators)}


def write(task):
    """The program alone, its list to a file."""
    with open(os.path.join(work, "list"), "wb") as out:
        subprocess.run([program, "plan", task, "--k", str(k)], stdout=out, check=True)


def loop(task, read, count=k):
    for plan in symk.plans(task, count):
        read(plan)


def seconds(call, *given):
    start = time.perf_counter()
    call(*given)
    return time.perf_counter() - start


def most():
    return resource.getrusage(resource.RUSAGE_SELF).ru_maxrss


tasks = {}
for made in ("switches 40", "psr 8", "hanoi 6"):
    tasks[made] = os.path.join(work, made.replace(" ", "-") + ".sas")
    with open(tasks[made], "wb") as out:
        subprocess.run([sys.executable, os.path.join(top, "bench", "plan_tasks.py"), *made.split()], stdout=out, check=True)
    for read in READ.values():
        loop(tasks[made], read, 1)
before, worst = most(), dict.fromkeys(READ, 0.0)
for made, task in tasks.items():
    turns = [[seconds(write, task), *(seconds(loop, task, read) for read in READ.values())] for _ in range(times)]
    own, *took = (statistics.median(it) for it in zip(*turns))
    print(made, "seconds %.3f" % own, *("%s %.2f" % (name, it / own) for name, it in zip(READ, took)), flush=True)
    worst = {name: max(worst[name], it / own) for name, it in zip(READ, took)}
print("python", *("%s %.2f" % it for it in worst.items()), "kilobytes %d" % (most() - before))
PYTHON
