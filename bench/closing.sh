#!/usr/bin/env bash
# How the time to close a state grows with the number of chained axioms: 1,000, 10,000 and 100,000 rules, in falling order, all
# in one layer and each variable in a layer of its own. A check of a plan of many steps closes a state a step, and the time of a
# check of no plan is taken off. The last line is `closing growth G`, the worst factor for ten times the rules.
set -eu
top=$(cd "$(dirname "$0")/.." && pwd)
work=$(mktemp -d)
trap 'rm -rf "$work"' EXIT
"$top/symk" build # where it isn't built
python3 - "$top/.symk/symk" "$top/bench/chained_task.py" "$work" <<'PYTHON'
import os, subprocess, sys, time

program, maker, work = sys.argv[1:]


def least(words, wanted, times=5):
    best = None
    for _ in range(times):
        start = time.monotonic()
        done = subprocess.run(words, stdout=subprocess.PIPE)
        took = time.monotonic() - start
        if done.stdout != wanted:
            sys.exit(f"{words}: {done.stdout!r}")
        best = took if best is None else min(best, took)
    return best


def closing(rules, kind):
    task, plans, none = (os.path.join(work, n) for n in ("task.sas", "one.plans", "none.plans"))
    with open(task, "wb") as out:
        subprocess.run([sys.executable, maker, str(rules), kind], stdout=out, check=True)
    steps = 2 * max(1, 2_000_000 // rules)
    lines = ["; plan 1", "; ops" + " 0" * steps] + ["(flip)"] * steps + [f"; cost = {steps} (unit cost)"]
    with open(plans, "w") as out:
        out.write("\n".join(lines) + "\n")
    open(none, "w").close()
    whole = least([program, "check", task, plans], b"good 1\n")
    return (whole - least([program, "check", task, none], b"good 0\n")) / steps


worst = 0.0
for kind in ("flat", "layered"):
    before = None
    for rules in (1_000, 10_000, 100_000):
        took = closing(rules, kind)
        print(f"{kind} rules {rules} microseconds-a-closing {took * 1e6:.1f}")
        if before is not None:
            worst = max(worst, took / before)
        before = took
print(f"closing growth {worst:.1f}")
PYTHON
