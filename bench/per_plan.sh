#!/usr/bin/env bash
# How the time of a plan grows with the number of plans and with their steps: 40 switches and a power net of 8 switches and breakers,
# tasks of bench/plan_tasks.py, listed with k of 100, 1,000, 10,000 and 100,000. The program is built first; the time is the median of
# five runs (`bash bench/per_plan.sh TIMES` for another number), that of the processor, less the median of a run of one plan. Each line
# has the plans, their steps, the milliseconds for all of them and the microseconds for a step. The last line is `per plan growth G`:
# the greatest factor of the time of a step from 1,000 plans to 10,000 or from 10,000 to 100,000.
set -eu
top=$(cd "$(dirname "$0")/.." && pwd)
work=$(mktemp -d)
trap 'rm -rf "$work"' EXIT
"$top/symk" build # where it isn't built
python3 - "$top" "$work" "${1:-5}" <<'PYTHON'
import os, statistics, subprocess, sys

top, work, times = sys.argv[1], sys.argv[2], int(sys.argv[3])
program = os.path.join(top, ".symk", "symk")


def run(task, k):
    """The seconds of the processor of a whole run, and how many plans and steps it listed."""
    with open(os.path.join(work, "list"), "wb") as out:
        child = subprocess.Popen([program, "plan", task, "--k", str(k)], stdout=out)
        _, status, usage = os.wait4(child.pid, 0)
    child.returncode = os.waitstatus_to_exitcode(status)
    if child.returncode != 0:
        sys.exit(f"{task}: status {child.returncode}")
    with open(os.path.join(work, "list"), "rb") as it:
        lines = it.read().split(b"\n")
    plans = sum(line.startswith(b"; plan ") for line in lines)
    return usage.ru_utime + usage.ru_stime, plans, sum(line.startswith(b"(") for line in lines)


def median(task, k):
    runs = [run(task, k) for _ in range(times)]
    return statistics.median(seconds for seconds, _, _ in runs), *runs[0][1:]


growth = 0.0
for made in ("switches 40", "psr 8"):
    path = os.path.join(work, made.replace(" ", "-") + ".sas")
    with open(path, "wb") as out:
        subprocess.run([sys.executable, os.path.join(top, "bench", "plan_tasks.py"), *made.split()], stdout=out, check=True)
    start, _, _ = median(path, 1)
    before = None
    for k in (100, 1_000, 10_000, 100_000):
        seconds, plans, steps = median(path, k)
        took = max(seconds - start, 0.0)
        print(f"{made} plans {plans} steps {steps} milliseconds {took * 1e3:.1f} microseconds-a-step {took * 1e6 / steps:.2f}")
        if k >= 10_000:
            growth = max(growth, took / steps / before)
        before = max(took / steps, 1e-9)
print(f"per plan growth {growth:.2f}")
PYTHON
