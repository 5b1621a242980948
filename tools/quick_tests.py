#!/usr/bin/env python3
"""quick_tests.py PROGRAM: every test of every crate by rt try, and by PROGRAM the commands of the pages and the checks of our own.

`./symk test` calls it. Where PROGRAM isn't there yet, it is what `./symk` makes of the sources as they stand. Nothing is proved by it, and must-fail edits are not tried: `rt ci` does that. A line tells of each crate, the last
one is `N passed, N failed`, and the status is 0 where none failed.
"""
import os
import re
import shutil
import signal
import subprocess
import sys
import tempfile
import threading
import time
from concurrent.futures import ThreadPoolExecutor
from pathlib import Path

TOP = Path(__file__).resolve().parent.parent
# What compiling a crate's tests takes of memory at most, in kB, and the seconds that its tests may take, unoptimised.
ROOM = 2_500_000
SECONDS = 300
# Tests that would take too long without optimisation: of a crate the file, what is looked for in it, what stands there instead, and what is said.
SHORTER = {
    "engine_tests": ("src/agreement.rt", r"(?m)^(const SEEDS: u64 = )300;$", r"\g<1>20;", "with 20 of its 300 seeds"),
    "symk_cli": ("src/tests/large.rt", r"(?s)#\[test\]\nfn (?:refuses_long_texts|reads_the_longest_text)\(.*?\n\}\n", "", "without its tests of texts of 268,435,456 bytes and more"),
}
RESULT = re.compile(r"test result: \w+\. (\d+) passed; (\d+) failed")


def tested():
    """The crates that have tests, those with most sources first."""
    names = [line.split(":")[0].strip() for line in (TOP / "crates.txt").read_text(encoding="utf-8").splitlines() if ":" in line.split("#")[0]]
    files = {name: list((TOP / "crates" / name / "src").rglob("*.rt")) for name in names}
    texts = {name: "".join(it.read_text(encoding="utf-8") for it in files[name]) for name in names}
    return sorted((it for it in names if "#[test]" in texts[it]), key=lambda it: (it != "symk_cli", it not in SHORTER, -len(texts[it])))


def lanes():
    """How many crates are compiled side by side, by processors and free memory."""
    free = next(int(it.split()[1]) for it in Path("/proc/meminfo").read_text(encoding="ascii").splitlines() if it.startswith("MemAvailable:"))
    return max(1, min(len(os.sched_getaffinity(0)), free // ROOM))


def shortened(crate, room):
    """A copy of the sources in which a crate's tests are shorter."""
    name, words, instead, _ = SHORTER[crate]
    copy = Path(room, "sources")
    shutil.copytree(TOP / "crates", copy / "crates", ignore=shutil.ignore_patterns("out", "proofs", "must-fail"))
    shutil.copyfile(TOP / "crates.txt", copy / "crates.txt")
    file = copy / "crates" / crate / name
    text, count = re.subn(words, instead, file.read_text(encoding="utf-8"))
    if not count:
        raise ValueError("%s of %s has nothing to shorten" % (name, crate))
    file.write_text(text, encoding="utf-8")
    return copy


def without_hints(run):
    """Ends what rt try runs beside the tests: it looks for names that a check will refuse, which no test needs."""
    while run.poll() is None:
        try:
            children = Path("/proc/%d/task/%d/children" % (run.pid, run.pid)).read_text().split()
            for child in children:
                if b"rattle\0check\0" in Path("/proc", child, "cmdline").read_bytes():
                    os.kill(int(child), signal.SIGKILL)
                    return
        except OSError:
            pass
        time.sleep(0.2)


def try_tests(crate):
    """Runs a crate's tests, says what came of them, and returns how many passed and failed."""
    began = time.monotonic()
    with tempfile.TemporaryDirectory(prefix="symk-test-") as room:
        top, said = (shortened(crate, room), ", " + SHORTER[crate][-1]) if crate in SHORTER else (TOP, "")
        how = {"cwd": top / "crates" / crate, "env": {**os.environ, "TMPDIR": room}, "stdin": subprocess.DEVNULL}
        how.update(stdout=subprocess.PIPE, stderr=subprocess.STDOUT, errors="replace")
        run = subprocess.Popen(["rt", "try", "--test", "--seconds", str(SECONDS)], **how)
        threading.Thread(target=without_hints, args=(run,), daemon=True).start()
        text = run.communicate()[0]
    found = RESULT.findall(text)
    passed, failed = (int(found[-1][0]), int(found[-1][1])) if found else (0, 0)
    failed += run.returncode != 0 and not failed or not found
    lines = ["%s: %d passed, %d failed%s (%d s)" % (crate, passed, failed, said, time.monotonic() - began)]
    print("\n".join(text.splitlines()[-20:] + lines if failed else lines), flush=True)
    return passed, failed


def pages_and_python(program):
    """Runs the pages' commands and the tests of python/ by the program, says what came of them, and returns how many passed and failed."""
    if not Path(program).exists():
        subprocess.run([str(TOP / "symk"), "demo", "1"], stdout=subprocess.DEVNULL, stderr=subprocess.DEVNULL)
    passed, failed = 0, 0
    for name, file in (("README.md, docs/USING.md", "tools/run_readme.py"), ("python, tools and names in the pages", "tools/own_checks.py")):
        began, how = time.monotonic(), {"stdin": subprocess.DEVNULL, "stdout": subprocess.PIPE, "stderr": subprocess.STDOUT, "errors": "replace"}
        ran = subprocess.run([sys.executable, "-B", str(TOP / file)], env={**os.environ, "SYMK_PROGRAM": program}, **how)
        lines = ran.stdout.splitlines()
        found = re.fullmatch(r"(\d+) passed, (\d+) failed", lines[-1] if lines else "")
        good, bad = (int(found.group(1)), int(found.group(2))) if found else (0, 1)
        told = "%s: %d passed, %d failed (%d s)" % (name, good, bad, time.monotonic() - began)
        print("\n".join((lines[-40:] if bad else []) + [told]), flush=True)
        passed, failed = passed + good, failed + bad
    return passed, failed


def main(program):
    signal.signal(signal.SIGTERM, lambda number, _: sys.exit(128 + number))
    with ThreadPoolExecutor(lanes()) as pool:
        runs = [pool.submit(pages_and_python, program)] + [pool.submit(try_tests, it) for it in tested()]
    passed, failed = (sum(it) for it in zip(*(run.result() for run in runs)))
    print("%d passed, %d failed" % (passed, failed))
    return 1 if failed else 0


if __name__ == "__main__":
    sys.exit(main(sys.argv[1]))
