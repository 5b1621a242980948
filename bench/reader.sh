#!/usr/bin/env bash
# How long the built program takes to read 50 MB of lawful task text, and how much memory: it checks an empty list of plans on
# it, which reads the whole task and nothing else. `wc` counts the same text's lines and words beside it, as a measure of the
# machine. The last line is `reader seconds S megabytes-of-memory M`, the least time and the greatest memory of five runs.
set -eu
top=$(cd "$(dirname "$0")/.." && pwd)
work=$(mktemp -d)
trap 'rm -rf "$work"' EXIT
python3 "$top/bench/large_task.py" "${1:-50}" >"$work/large.sas"
: >"$work/none.plans"
"$top/symk" build # where it isn't built
python3 - "$top/.symk/symk" "$work" <<'PYTHON'
import os, resource, subprocess, sys, time

program, work = sys.argv[1:]
text = os.path.join(work, "large.sas")
size = os.path.getsize(text) / 1e6


def run(words):
    start = time.monotonic()
    done = subprocess.run(words, stdout=subprocess.PIPE)
    return time.monotonic() - start, done


peer = min(run(["wc", "-lw", text])[0] for _ in range(5))
times = []
for _ in range(5):
    seconds, done = run([program, "check", text, os.path.join(work, "none.plans")])
    if done.returncode != 0 or done.stdout != b"good 0\n":
        sys.exit(f"the text was refused: {done.stdout!r}, status {done.returncode}")
    times.append(seconds)
memory = resource.getrusage(resource.RUSAGE_CHILDREN).ru_maxrss * 1024 / 1e6
print(f"text megabytes {size:.1f} memory-per-byte {memory / size:.1f} wc seconds {peer:.2f}")
print(f"reader seconds {min(times):.2f} megabytes-of-memory {memory:.0f}")
PYTHON
