#!/usr/bin/env python3
"""to_list.py [--by-cost] TASK PLAN.. > LIST: plan files of other planners as one list that `symk check TASK LIST` reads.

TASK is the SAS file (version 3). Each PLAN is a file of one plan: a line `(name args)` for each step, and comments that begin with `;`.
Blocks come in the order of the files, or by cost with --by-cost, which is the order that a check wants.

A plan file names operators, a list numbers them. Where several operators have the name of a step, those are taken by which the whole
plan can be run from the initial state to the goal, derived variables and conditional effects included. Where this leaves more than one
way, standard error says so, and the first one is taken, by the operators' numbers; of files with the same lines each takes the next
way. Where no way leads to the goal, that is said too, and the first operator that applies is taken, or else the first of the name: the
check then says what fails. Letters may be large or small. A cost that a file states is not looked at. `PlanFiles` of python/symk.py does
all this.

The status is 0, or 1 where a plan can't be written: a step is no operator's name, or the plan costs 2^64 or more.
"""
import argparse
import sys
from pathlib import Path

sys.path.insert(0, str(Path(__file__).resolve().parent.parent / "python"))
import symk  # noqa: E402


def main():
    words = argparse.ArgumentParser(description=__doc__, formatter_class=argparse.RawDescriptionHelpFormatter)
    words.add_argument("--by-cost", action="store_true")
    words.add_argument("task")
    words.add_argument("plans", nargs="+")
    asked = words.parse_args()
    try:
        files, plans, status = symk.PlanFiles(symk.read_task(symk.text_of(asked.task))), [], 0
    except symk.Broken as why:
        sys.exit(str(why))
    for path in asked.plans:
        say = lambda text: print("%s: %s" % (path, text), file=sys.stderr)
        try:
            plans.append(files.plan(symk.steps_of(symk.text_of(path)), say=say))
        except symk.Unlisted as why:
            say(str(why))
            status = 1
    if asked.by_cost:
        plans.sort(key=lambda plan: plan.cost)
    for number, plan in enumerate(plans, 1):
        sys.stdout.buffer.write(plan.block(number))
    return status


if __name__ == "__main__":
    sys.exit(main())
