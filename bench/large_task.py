#!/usr/bin/env python3
"""large_task.py MEGABYTES > task.sas: a lawful task file of about that many megabytes.

A robot carries balls between rooms: as many operators as are wanted, each with prevail facts, effects and a name of its own,
and some with conditional effects. It is read whole before anything else, so it need not have a plan.
"""
import sys

wanted = float(sys.argv[1]) * 1_000_000
BALLS, ROOMS = 1000, 12
out = sys.stdout.write
written = 0


def put(*lines):
    global written
    text = "\n".join(lines) + "\n"
    written += len(text)
    out(text)


def operator(number):
    ball, at, to = number % BALLS + 1, number // BALLS % ROOMS, number // 7 % ROOMS
    effects = [f"0 {ball} {at} {to}"]
    if number % 3 == 0:
        effects.append(f"1 {ball} {at} 0 -1 {to}")
    return ["begin_operator", f"carry ball{ball} room{at} room{to} {number}", "1", f"0 {at}", str(len(effects)), *effects,
            "1", "end_operator"]


put("begin_version", "3", "end_version", "begin_metric", "0", "end_metric", str(BALLS + 1))
for name in ["robot"] + [f"ball{i}" for i in range(1, BALLS + 1)]:
    put("begin_variable", name, "-1", str(ROOMS), *[f"Atom at({name}, room{r})" for r in range(ROOMS)], "end_variable")
put("0", "begin_state", *["0"] * (BALLS + 1), "end_state")
put("begin_goal", str(BALLS), *[f"{i} {ROOMS - 1}" for i in range(1, BALLS + 1)], "end_goal")
each = sum(len("\n".join(operator(n))) + 1 for n in range(0, 999_999, 9973)) / len(range(0, 999_999, 9973))
count = min(1_000_000, max(1, int((wanted - written) / each)))
put(str(count))
for n in range(count):
    put(*operator(n))
put("0")
