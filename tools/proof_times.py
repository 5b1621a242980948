#!/usr/bin/env python3
"""proof_times.py CRATE [--test] [--most N]: which parts of a crate's proof take longest, in seconds by the clock.

Proves the crate from nothing, by one job, into a folder that goes when it ends; with --test its tests too. The checker keeps each part as
soon as it is proved, so a part took the time since the one before. `Lts` and `Tie` are the borrow checker's parts of a function, `Proof`
is what its clauses take. `rattle-last-used` is the time before the first part; `linked-compared` and `TheLink` stand where a program is
linked, tests among them. The crates below must be built, as `rt check` leaves them. The last line is `CRATE parts N seconds S`.
"""
import argparse
import subprocess
import sys
import tempfile
import time
from pathlib import Path

TOP = Path(__file__).resolve().parent.parent


def crates():
    """Of each crate the crates that it stands on, those of the toolchain among them."""
    lines = (line.split("#")[0] for line in (TOP / "crates.txt").read_text(encoding="utf-8").splitlines())
    return {name.strip(): on.split() for name, on in (line.split(":") for line in lines if ":" in line)}


def below(on, crate):
    """The crates of the repository below this one."""
    found, waiting = set(), list(on[crate])
    while waiting:
        name = waiting.pop()
        if name in on and name not in found:
            found.add(name)
            waiting += on[name]
    return sorted(found)


def words(crate, kept, flags):
    """The command that checks the crate and keeps its parts in the folder."""
    kit = Path(subprocess.run(["rt", "doc"], capture_output=True, text=True, check=True).stdout.split()[-1]).parent
    on = crates()
    built = {name: TOP / "crates" / name / "out" / "rlib" for name in below(on, crate)}
    missing = [name for name, folder in built.items() if not (folder / f"{name}.rlib").exists()]
    if missing:
        sys.exit(f"not built: {', '.join(missing)}; run rt check in {crate} first")
    root = "src/main.rt" if (TOP / "crates" / crate / "src" / "main.rt").exists() else "src/lib.rt"
    uses = {"std": f"{kit}/rlibs/std.rlib"}
    for name in on[crate]:
        uses[name] = f"{built[name]}/{name}.rlib" if name in built else f"{kit}/rlibs/{name}.rlib"
    command = [f"{kit}/bin/rattle", "check", "--crate-name", crate, root, "-L", f"dependency={kit}/rlibs"]
    for name, rlib in uses.items():
        command += ["--extern", f"{name}={rlib}"]
    for folder in built.values():
        command += ["-L", f"dependency={folder}"]
    command += ["--antt-project", f"{kit}/rattle/logic/antt-project.json", "--logic-built", f"{kit}/logic_built"]
    return command + ["--links", f"{crate}=", "--jobs", "1", "--incremental", kept, *flags]


def parts(kept, start):
    """The parts in the folder with the seconds that each took."""
    files = sorted((file.stat().st_mtime, file.name) for file in Path(kept).rglob("*") if file.is_file())
    before = [start] + [at for at, _ in files]
    return [(at - last, name.removesuffix(".oantt")) for (at, name), last in zip(files, before)]


def main():
    asked = argparse.ArgumentParser(description=__doc__.split("\n")[0])
    asked.add_argument("crate", choices=sorted(crates()), metavar="CRATE")
    asked.add_argument("--test", action="store_true", help="the crate with its tests")
    asked.add_argument("--most", type=int, default=20, help="how many parts are shown (20)")
    asked = asked.parse_args()
    with tempfile.TemporaryDirectory() as kept:
        command = words(asked.crate, kept, ["--test"] * asked.test)
        start = time.time()
        ran = subprocess.run(command, cwd=TOP / "crates" / asked.crate, capture_output=True, text=True)
        took = time.time() - start
        if ran.returncode:
            sys.exit(ran.stdout + ran.stderr)
        told = parts(kept, start)
    for seconds, name in sorted(told, reverse=True)[: asked.most]:
        print(f"{seconds:7.1f} {name}")
    print(f"{asked.crate} parts {len(told)} seconds {took:.0f}")


if __name__ == "__main__":
    main()
