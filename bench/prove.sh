#!/usr/bin/env bash
# How long it takes to write a certificate that a task has no plan and to check it, in how much memory, and how long it is: gripper with
# 4 balls (256 states are reached), sliding tiles on a board of 3 columns and 3 rows (181,440), 31 lamps that are turned over in pairs
# (2^30) and gripper with 22 balls (1.2 * 10^9), tasks of bench/unsolvable_tasks.py, by `symk prove` and `symk refute`. The program is
# built first, then each run is made five times (`bash bench/prove.sh TIMES` for another number), all tasks in turn. The certificate
# must be the same each time and be accepted; else the script ends. The time is that of the processor for a whole run, the memory the
# most that a run had in use. Each line has the bytes and the nodes of a certificate and the medians; the last line is
# `prove tasks N written S checked T`, with the sums of the medians of the seconds.
set -eu
top=$(cd "$(dirname "$0")/.." && pwd)
work=$(mktemp -d)
trap 'rm -rf "$work"' EXIT
"$top/symk" build # where it isn't built
g++ -std=c++17 -O3 -o "$work/measure" "$top/bench/measure.cpp"
python3 - "$top" "$work" "${1:-5}" <<'PYTHON'
import os, statistics, subprocess, sys

top, work, times = sys.argv[1], sys.argv[2], int(sys.argv[3])
program = os.path.join(top, ".symk", "symk")
TASKS = ("gripper 4", "board 3 3", "pairs 31", "gripper 22")


def run(*words):
    """The bytes that were printed, the seconds of the processor and the megabytes at most."""
    used = os.path.join(work, "used")
    done = subprocess.run([os.path.join(work, "measure"), used, program, *words], stdout=subprocess.PIPE, check=True)
    with open(used) as it:
        status, seconds, kilobytes = it.read().split()
    if status != "0":
        sys.exit(f"{' '.join(words)}: status {status}, {done.stdout.decode()}")
    return done.stdout, float(seconds), int(kilobytes) * 1024 / 1e6


paths, certs, took, most = {}, {}, {}, {}
for made in TASKS:
    paths[made] = os.path.join(work, made.replace(" ", "-") + ".sas")
    with open(paths[made], "wb") as out:
        subprocess.run([sys.executable, os.path.join(top, "bench", "unsolvable_tasks.py"), *made.split()], stdout=out, check=True)
for _ in range(times):
    for made in TASKS:
        cert, *written = run("prove", paths[made])
        if certs.setdefault(made, cert) != cert:
            sys.exit(f"{made}: another certificate")
        with open(os.path.join(work, "cert"), "wb") as out:
            out.write(cert)
        verdict, *checked = run("refute", paths[made], os.path.join(work, "cert"))
        if verdict != b"no plan\n":
            sys.exit(f"{made}: {verdict.decode()}")
        for side, (seconds, megabytes) in (("written", written), ("checked", checked)):
            took.setdefault((made, side), []).append(seconds)
            most.setdefault((made, side), []).append(megabytes)
sums = {"written": 0.0, "checked": 0.0}
print("| task | bytes | nodes | written | checked | written | checked |\n|---|---|---|---|---|---|---|")
for made in TASKS:
    seconds = {side: statistics.median(took[made, side]) for side in sums}
    row = [made, len(certs[made]), certs[made].split(b"\n")[2].split()[1].decode(), *[f"{s:.2f} s" for s in seconds.values()]]
    row += [f"{statistics.median(most[made, side]):.1f} MB" for side in sums]
    print("| " + " | ".join(map(str, row)) + " |")
    for side in sums:
        sums[side] += seconds[side]
print(f"prove tasks {len(TASKS)} written {sums['written']:.1f} checked {sums['checked']:.1f}")
PYTHON
