#!/usr/bin/env python3
"""build.py PROGRAM: proves the crates that the planner is made of, some side by side, builds it, and puts it at PROGRAM.

`./symk build` calls it. It works in copies of the sources outside the repository, one for each crate that is proved at a time,
since rt works in one crate of a copy at a time; what one copy built, the others take. The copies are kept, so that a build that
was stopped goes on where it was, and the next one proves what changed. SYMK_BUILD names their folder; by default it is below
$XDG_CACHE_HOME/symk, or ~/.cache/symk. The status is 0, or 70 where a proof failed or memory was refused.

With SYMK_TIMES=FILE it writes there how long each crate took; from nothing and with nothing else running, that is a new
tools/build_times.txt, by which the crates with the longest way to the program go first and the time that is left is told.
"""
import hashlib
import os
import shutil
import signal
import subprocess
import sys
import time
from pathlib import Path

TOP = Path(__file__).resolve().parent.parent
PROGRAM = "symk_cli"
# What a prover takes of memory at most, in kB, and how often it is said how far the build is, in seconds.
ROOM = 3_000_000
SAID_EVERY = 5


def listed():
    """The crates of crates.txt in its order, each with the crates of the repository that it stands on."""
    lines = [line.split("#")[0].split(":") for line in (TOP / "crates.txt").read_text(encoding="utf-8").splitlines()]
    words = {line[0].strip(): line[1].split() for line in lines if len(line) == 2}
    return {name: [it for it in below if it in words] for name, below in words.items()}


def needed(below):
    """The crates that the program is made of, itself the last, in the order of the list otherwise."""
    found, waiting = {PROGRAM}, [PROGRAM]
    while waiting:
        new = [it for it in below[waiting.pop()] if it not in found]
        found.update(new)
        waiting += new
    return [it for it in below if it in found and it != PROGRAM] + [PROGRAM]


def kept_times():
    """Seconds that the proof of each crate took where it was last measured, alone on its processor."""
    lines = (TOP / "tools/build_times.txt").read_text(encoding="utf-8").splitlines()
    return {line.split()[0]: float(line.split()[1]) for line in lines if line and not line.startswith("#")}


def places():
    """The folder of the copies."""
    cache = os.environ.get("XDG_CACHE_HOME") or os.path.expanduser("~/.cache")
    name = "%s-%s" % (TOP.name, hashlib.sha256(str(TOP).encode()).hexdigest()[:12])
    return Path(os.environ.get("SYMK_BUILD") or Path(cache, "symk", name))


def sources(crate):
    """The files of a crate that its proof reads, by their paths below the repository."""
    parts = [TOP / "crates" / crate / part for part in ("src", "specs", "proofs")]
    files = [it for part in parts for it in part.rglob("*") if it.suffix in (".rt", ".antt")]
    return {it.relative_to(TOP): it.read_bytes() for it in files}


def write(file, data):
    """Writes a file where it has other bytes."""
    if not file.is_file() or file.read_bytes() != data:
        file.parent.mkdir(parents=True, exist_ok=True)
        file.write_bytes(data)


def lay(copy, crates, below, kit):
    """Makes the copy's sources those of the repository; what rt keeps beside them stays."""
    files = {path: data for crate in crates for path, data in sources(crate).items()}
    lines = ["%s: %s\n" % (it, " ".join(below[it] + kit[it])) for it in crates]
    files[Path("crates.txt")] = "".join(lines).encode()
    files[Path("HANDLES")] = (TOP / "HANDLES").read_bytes()
    for crate in crates:
        for part in ("src", "specs", "proofs"):
            for it in list((copy / "crates" / crate / part).rglob("*")):
                if it.is_file() and it.relative_to(copy) not in files:
                    it.unlink()
    for path, data in files.items():
        write(copy / path, data)


def of_kit(below):
    """The toolchain's libraries that each crate names."""
    lines = [line.split("#")[0].split(":") for line in (TOP / "crates.txt").read_text(encoding="utf-8").splitlines()]
    return {line[0].strip(): [it for it in line[1].split() if it not in below] for line in lines if len(line) == 2}


def free_memory():
    """Memory that is free, in kB."""
    for line in Path("/proc/meminfo").read_text(encoding="ascii").splitlines():
        if line.startswith("MemAvailable:"):
            return int(line.split()[1])
    return 0


def share(crate, built, copy):
    """Gives a copy the library that another one built: hard links, in one step."""
    to, made = copy / "crates" / crate / "out", built / "crates" / crate / "out/rlib"
    stamp = to / "rlib/stamp"
    if copy != built and not (stamp.is_file() and stamp.read_bytes() == (made / "stamp").read_bytes()):
        to.mkdir(parents=True, exist_ok=True)
        shutil.rmtree(to / "new", ignore_errors=True)
        shutil.rmtree(to / "rlib", ignore_errors=True)
        shutil.copytree(made, to / "new", copy_function=os.link)
        (to / "new").rename(to / "rlib")


def fetch(crate, copies, copy):
    """Moves what an earlier build kept of a crate's proof to the copy that it is proved in now."""
    to = copy / "crates" / crate / "out"
    for part in ("incremental", "rlib"):
        kept = [it / "crates" / crate / "out" / part for it in copies if it != copy]
        found = next((it for it in kept if it.is_dir()), None)
        if found and not (to / part).is_dir():
            to.mkdir(parents=True, exist_ok=True)
            found.rename(to / part)


class Build:
    """A build: what is proved, what runs in which copy, and since when."""

    def __init__(self):
        self.below = listed()
        self.crates = needed(self.below)
        self.times = kept_times()
        self.lanes = max(1, min(len(os.sched_getaffinity(0)), free_memory() // ROOM))
        self.copies = [places() / str(it) for it in range(self.lanes)]
        self.proved, self.running, self.took = {}, {}, {}
        self.began, self.said, self.told = time.monotonic(), 0.0, ""

    def lay(self):
        """Lays the sources into the copies."""
        kit = of_kit(self.below)
        for copy in self.copies:
            lay(copy, self.crates, self.below, kit)

    def way(self, crate):
        """Seconds from the beginning of a crate's proof to the end of the program's, by the kept times."""
        above = [it for it in self.crates if crate in self.below[it]]
        return self.times.get(crate, 60) + max([self.way_of[it] for it in above], default=0)

    def order(self):
        """Finds the longest way from each crate to the program, those above first."""
        self.way_of, left = {}, list(self.crates)
        while left:
            ready = [it for it in left if all(crate in self.way_of for crate in self.crates if it in self.below[crate])]
            self.way_of.update({it: self.way(it) for it in ready})
            left = [it for it in left if it not in ready]

    def ready(self):
        """Crates that may start, those with the longest way to the program first."""
        busy = [crate for _, crate, _ in self.running.values()]
        new = [it for it in self.crates if it not in self.proved and it not in busy]
        new = [it for it in new if all(crate in self.proved for crate in self.below[it])]
        return sorted(new, key=lambda it: -self.way_of[it])

    def start(self, crate, waiting):
        """Starts the proof of a crate in a copy that nothing runs in."""
        copy = next(it for it in self.copies if it not in [at for at, _, _ in self.running.values()])
        fetch(crate, self.copies, copy)
        for it, built in self.proved.items():
            share(it, built, copy)
        jobs = max(1, self.lanes // (len(self.running) + 1 + waiting))
        verb, *more = ["run", "--", "demo", "1"] if crate == PROGRAM else ["lib"]
        words = [sys.executable, "-B", str(TOP / "tools/rt.py"), verb, "--jobs", str(jobs), *more]
        with open(self.log(crate), "wb") as log:
            how = {"stdin": subprocess.DEVNULL, "stdout": log, "stderr": subprocess.STDOUT, "start_new_session": True}
            self.running[subprocess.Popen(words, cwd=copy / "crates" / crate, **how)] = (copy, crate, time.monotonic())

    def log(self, crate):
        """The file of what rt says of a crate."""
        (places() / "logs").mkdir(parents=True, exist_ok=True)
        return places() / "logs" / (crate + ".log")

    def fill(self):
        """Starts what may start, as far as processors and memory allow."""
        ready = self.ready()
        while ready and len(self.running) < self.lanes and (not self.running or free_memory() > ROOM):
            self.start(ready.pop(0), len(ready))

    def ended(self):
        """Takes in what ended, and returns the crate that failed, if one did."""
        for run in [it for it in self.running if it.poll() is not None]:
            copy, crate, since = self.running.pop(run)
            if run.returncode != 0:
                return crate
            self.proved[crate] = copy
            self.took[crate] = time.monotonic() - since
        return None

    def left(self):
        """Seconds that are left, by the kept times and by how this machine compares with the one that they were taken on."""
        known = [it for it in self.proved if it in self.times and self.took[it] > 5]
        pace = sum(self.took[it] for it in known) / sum(self.times[it] for it in known) if known else 1.0
        now = time.monotonic()
        ends = {it: 0.0 for it in self.proved}
        lanes = [0.0] * self.lanes
        for _, crate, since in self.running.values():
            ends[crate] = max(self.times.get(crate, 60) * pace - (now - since), 1.0)
            lanes[lanes.index(min(lanes))] = ends[crate]
        todo = [it for it in self.crates if it not in ends]
        while todo:
            ready = [it for it in todo if all(crate in ends for crate in self.below[it])]
            start = lambda it: max([min(lanes)] + [ends[crate] for crate in self.below[it]])
            crate = min(ready, key=lambda it: (start(it), -self.way_of[it]))
            ends[crate] = start(crate) + self.times.get(crate, 60) * pace
            lanes[lanes.index(min(lanes))] = ends[crate]
            todo.remove(crate)
        return max(ends.values(), default=0.0)

    def tell(self):
        """Says how many crates are proved, for how long it has run, and how long it will take."""
        now = time.monotonic()
        if now - self.said >= SAID_EVERY:
            took, left = int(now - self.began), self.left() if len(self.proved) < len(self.crates) else 0
            rest = "less than a minute" if left < 60 else "about %d min" % round(left / 60)
            text = "%d of %d crates proved" % (len(self.proved), len(self.crates))
            self.said = now
            print("symk: %s after %d min %d s, %s to go" % (text, took // 60, took % 60, rest), file=sys.stderr, flush=True)

    def write_times(self, file):
        """Writes how long each crate took, and all together."""
        rows = ["# NAME SECONDS: how long the proof of each crate of the program took, %d at a time, by tools/build.py\n" % self.lanes]
        rows += ["# minutes %d\n" % -(-(time.monotonic() - self.began) // 60)]
        file.write_text("".join(rows + ["%s %.0f\n" % (it, self.took[it]) for it in self.crates]), encoding="utf-8")

    def stop(self):
        """Ends what runs."""
        for run in self.running:
            try:
                os.killpg(run.pid, signal.SIGTERM)
            except ProcessLookupError:
                pass
        for run in self.running:
            run.wait()

    def run(self):
        """Proves all, and returns the crate that failed, if one did."""
        failed = None
        while failed is None and len(self.proved) < len(self.crates):
            self.fill()
            self.tell()
            time.sleep(0.2)
            failed = self.ended()
        return failed


def fail(build, crate):
    """Says which crate failed, and the last lines of its log."""
    lines = build.log(crate).read_text(encoding="utf-8", errors="replace").splitlines()
    print(*lines[-20:], sep="\n", file=sys.stderr)
    print("symk: the build failed at %s; the whole log is %s" % (crate, build.log(crate)), file=sys.stderr)
    return 70


def main(to):
    build = Build()
    build.order()
    build.lay()
    # (an end from outside ends what runs as well)
    for it in (signal.SIGTERM, signal.SIGHUP):
        signal.signal(it, lambda number, _: sys.exit(128 + number))
    try:
        crate = build.run()
    except KeyboardInterrupt:
        return 130
    finally:
        build.stop()
    if crate:
        return fail(build, crate)
    if os.environ.get("SYMK_TIMES"):
        build.write_times(Path(os.environ["SYMK_TIMES"]))
    new = to.with_name(to.name + ".new")
    shutil.copyfile(build.proved[PROGRAM] / "crates" / PROGRAM / "out" / PROGRAM, new)
    new.chmod(0o755)
    new.replace(to)
    took = int(time.monotonic() - build.began)
    print("symk: built, after %d min %d s" % (took // 60, took % 60), file=sys.stderr)
    return 0


if __name__ == "__main__":
    sys.exit(main(Path(sys.argv[1])))
