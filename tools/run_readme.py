#!/usr/bin/env python3
"""run_readme.py: runs each `sh` and `python` block of README.md and docs/USING.md, and compares what it prints with the `text` block after it.

A block without one is to print nothing. The blocks of a page run in its order, in a folder of the page's own that has the repository's
programs, examples, tools and `python/`, which is on PYTHONPATH too; and in the place of Fast Downward's translator a script that copies the
world of blocks. The program is that of SYMK_PROGRAM, else `./symk` and `.symk/symk` of the repository. Blocks that call what isn't on the
machine (GNU parallel, Slurm) are skipped, which is said; so are those that set a limit of memory, where the program doesn't run within
one, as what `rt try` compiled. The last line is `N passed, N failed`, and the status is 0 where none failed.
"""
import os
import re
import subprocess
import sys
import tempfile
from pathlib import Path

TOP = Path(__file__).resolve().parent.parent
PAGES = ("README.md", "docs/USING.md")
FENCE = re.compile(r"^```(\w*)\n(.*?)^```$", re.MULTILINE | re.DOTALL)
ELSEWHERE = {"parallel": ["parallel", "--version"], "sbatch": ["sinfo", "--noheader"]}
TRANSLATOR = """\
#!/usr/bin/env python3
import shutil, sys
domain, problem, option, task, *rest = sys.argv[1:]
assert option == "--sas-file" and rest == ["--keep-unimportant-variables"], sys.argv
shutil.copy("%s", task)
"""


def furnish(folder, program):
    """What a page's commands may find in their folder."""
    for name in ("README.md", "examples", "tools", "bench", "python"):
        Path(folder, name).symlink_to(TOP / name)
    Path(folder, "symk").symlink_to(program or TOP / "symk")
    if program:
        Path(folder, ".symk").mkdir()
        Path(folder, ".symk", "symk").symlink_to(program)
    else:
        Path(folder, ".symk").symlink_to(TOP / ".symk")
    Path(folder, "downward", "src", "translate").mkdir(parents=True)
    Path(folder, "downward", "src", "translate", "translate.py").write_text(TRANSLATOR % (TOP / "examples" / "blocks.sas"))
    for name in ("domain.pddl", "problem.pddl"):
        Path(folder, name).touch()


def blocks(text):
    """The language of each block that runs, its lines, and what it is to print."""
    fences = FENCE.findall(text)
    for (language, lines), (following, printed) in zip(fences, fences[1:] + [("", "")]):
        if language in ("sh", "python"):
            yield language, lines, printed if following == "text" else ""


def answers(words):
    """Whether a command is there and answers."""
    try:
        return subprocess.run(words, stdout=subprocess.DEVNULL, stderr=subprocess.DEVNULL, timeout=10).returncode == 0
    except (OSError, subprocess.TimeoutExpired):
        return False


def missing(lines, program):
    """What a block calls that isn't on this machine, or that doesn't answer; and the limit that the program doesn't run within."""
    found = [word for word, words in ELSEWHERE.items() if re.search(r"^%s " % word, lines, re.MULTILINE) and not answers(words)]
    if re.search(r"ulimit -v|megabytes", lines) and not answers(["sh", "-c", 'ulimit -v 1000000; exec "$0" demo 1', program]):
        found.append("a program that runs within a limit of memory")
    return found


def counts(page, program):
    """How many blocks of a page printed what they should, and how many not; those are shown."""
    passed, failed = 0, 0
    with tempfile.TemporaryDirectory() as folder:
        furnish(folder, program)
        for language, lines, wanted in blocks((TOP / page).read_text(encoding="utf-8")):
            lacks = missing(lines, program or str(TOP / ".symk" / "symk"))
            if lacks:
                print("%s: skipped, since here isn't %s:\n%s" % (page, ", ".join(lacks), lines))
                continue
            words = ["bash", "-c", lines] if language == "sh" else [sys.executable, "-B", "-c", lines]
            environment = dict(os.environ, PYTHONPATH="python", PYTHONDONTWRITEBYTECODE="1")
            done = subprocess.run(words, cwd=folder, env=environment, stdin=subprocess.DEVNULL, stdout=subprocess.PIPE,
                                  stderr=subprocess.STDOUT)
            printed = done.stdout.decode()
            passed, failed = passed + (printed == wanted), failed + (printed != wanted)
            if printed != wanted:
                print("%s: this\n%s\nprints\n%s\nwanted\n%s" % (page, lines, printed, wanted))
    return passed, failed


def main():
    program = os.environ.get("SYMK_PROGRAM")
    passed, failed = map(sum, zip(*(counts(page, program and os.path.abspath(program)) for page in PAGES)))
    print("%d passed, %d failed" % (passed, failed))
    return 1 if failed else 0


if __name__ == "__main__":
    sys.exit(main())
