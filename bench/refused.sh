#!/usr/bin/env bash
# Refuses each allocation of eight runs of the built program in turn, one a run: a list, a list in `unordered`, one in `loopless`, a
# check, a certificate written, one of a task that has a plan, a certificate that shows that there is none, and one that doesn't. A run
# must then end with status 40, after whole pieces of its answer in their order, or with its answer, where the program goes on without
# that memory. The C library's calls are counted by refused.c, which gcc builds. The last line is
# `refused N wrong M`; where M isn't 0, each wrong run is told and the status is 1.
set -eu
top=$(cd "$(dirname "$0")/.." && pwd)
work=$(mktemp -d)
trap 'rm -rf "$work"' EXIT
"$top/symk" build # where it isn't built
gcc -O2 -shared -fPIC -o "$work/refused.so" "$top/bench/refused.c"
python3 - "$top" "$work" <<'PYTHON'
import os, subprocess, sys

top, work = sys.argv[1:]
program = os.path.join(top, ".symk", "symk")
back, two, zero, none = (
    os.path.join(top, "examples", name + ".sas") for name in ("switch-and-back", "two-switches", "zero-costs", "no-plan")
)
listed, shown, left = (os.path.join(work, name) for name in ("listed", "shown", "left"))
ON, OFF = "(switch-on)\n", "(switch-off)\n"
THREE = [
    "; plan 1\n; ops 0\n" + ON + "; cost = 1 (unit cost)\n",
    "; plan 2\n; ops 0 1 0\n" + ON + OFF + ON + "; cost = 3 (unit cost)\n",
    "; plan 3\n; ops 0 1 0 1 0\n" + ON + OFF + ON + OFF + ON + "; cost = 5 (unit cost)\n",
    "; reached 3\n",
]
A_THEN_B = ["; plan 1\n; ops 0 1\n(a-on)\n(b-on)\n; cost = 2 (unit cost)\n", "; exhausted 1\n"]
B_THEN_A = ["; plan 1\n; ops 1 0\n(b-on)\n(a-on)\n; cost = 2 (unit cost)\n", "; exhausted 1\n"]
ONE = ["; plan 1\n; ops 0\n(go)\n; cost = 1 (general cost)\n", "; exhausted 1\n"]
# The states that runs reach, and of these the initial one alone, out of which the first operator leads.
REACHED = "symk-cert 1\nbits 2\nnodes 1\n0 1 0\nroot 2\nend\n"
INITIAL = "symk-cert 1\nbits 2\nnodes 2\n1 1 0\n0 2 0\nroot 3\nend\n"
# The words, the status, and the answers that are right, piece by piece.
RUNS = (
    (("plan", back, "--k", "3"), 0, (THREE,)),
    (("plan", two, "--k", "5", "--mode", "unordered"), 10, (A_THEN_B, B_THEN_A)),
    (("plan", zero, "--k", "3", "--mode", "loopless"), 10, (ONE,)),
    (("check", back, listed), 0, (["good 3\n"],)),
    (("prove", none), 0, ([REACHED],)),
    (("prove", back), 15, (["has a plan\n"],)),
    (("refute", none, shown), 0, (["no plan\n"],)),
    (("refute", none, left), 16, (["not shown: operator 0\n"],)),
)


def run(words, number):
    """The status, the bytes, and how often memory was asked for, where the call of that number is refused (0: none)."""
    counted = os.path.join(work, "count")
    where = dict(os.environ, LD_PRELOAD=os.path.join(work, "refused.so"), REFUSE=str(number), COUNT_TO=counted)
    done = subprocess.run([program, *words], env=where, stdout=subprocess.PIPE, stderr=subprocess.DEVNULL)
    with open(counted) as it:
        return done.returncode, done.stdout.decode(), int(it.read())


for path, text in ((listed, "".join(THREE)), (shown, REACHED), (left, INITIAL)):
    with open(path, "w") as out:
        out.write(text)
tried = wrong = 0
for words, status, answers in RUNS:
    whole = ["".join(pieces) for pieces in answers]
    fronts = {"".join(pieces[:n]) for pieces in answers for n in range(len(pieces) + 1)}
    ended, printed, count = run(words, 0)
    if ended != status or printed not in whole:
        sys.exit(f"{words}: status {ended}, {printed!r}")
    short = 0
    for number in range(1, count + 1):
        ended, printed, _ = run(words, number)
        if ended == 40 and printed in fronts:
            short += 1
        elif ended != status or printed not in whole:
            wrong += 1
            print(f"{words}: allocation {number}: status {ended}, {printed!r}")
    tried += count
    name = " ".join(os.path.basename(word) for word in words)
    print(f"{name}: {count} allocations, {short} ended with 40")
print(f"refused {tried} wrong {wrong}")
sys.exit(wrong != 0)
PYTHON
