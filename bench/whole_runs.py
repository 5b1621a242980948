"""Whole runs of the program within limits, for the scripts of this folder: what was listed, in which time and memory."""
import os
import re
import resource
import signal
import subprocess
import sys

LIMIT, MEMORY = 60, 4_000_000_000  # the seconds of the processor and the bytes that a run may take
COST = re.compile(rb"^; cost = (\d+) ", re.MULTILINE)


def bound():
    resource.setrlimit(resource.RLIMIT_CPU, (LIMIT, LIMIT))
    resource.setrlimit(resource.RLIMIT_AS, (MEMORY, MEMORY))


class Runs:
    """Runs of the built program of a checkout, with a folder for what they write."""

    def __init__(self, top, work):
        self.program = os.path.join(top, ".symk", "symk")
        self.maker = os.path.join(top, "bench", "plan_tasks.py")
        self.work, self.list = work, os.path.join(work, "list")

    def made(self, task):
        """The file of a task of plan_tasks.py."""
        path = os.path.join(self.work, task.replace(" ", "-") + ".sas")
        with open(path, "wb") as out:
            subprocess.run([sys.executable, self.maker, *task.split()], stdout=out, check=True)
        return path

    def listed(self, path, k, search, *flags):
        """The status, what was printed, the seconds of the processor and the megabytes at most; None past the limits."""
        words = [self.program, "plan", path, "--k", str(k), "--search", search, *flags]
        with open(self.list, "wb") as out:
            child = subprocess.Popen(words, stdout=out, stderr=subprocess.DEVNULL, preexec_fn=bound)
            _, status, usage = os.wait4(child.pid, 0)
        child.returncode = os.waitstatus_to_exitcode(status)
        if child.returncode in (-signal.SIGKILL, -signal.SIGXCPU, 40):
            return None
        if child.returncode not in (0, 10, 13, 31):
            sys.exit(f"{words}: status {child.returncode}")
        with open(self.list, "rb") as it:
            printed = it.read()
        return child.returncode, printed, usage.ru_utime + usage.ru_stime, usage.ru_maxrss * 1024 / 1e6

    def costs_of(self, path, printed):
        """The costs of the plans that were listed last, once `symk check` has called the list good."""
        costs = [int(cost) for cost in COST.findall(printed)]
        done = subprocess.run([self.program, "check", path, self.list], stdout=subprocess.PIPE)
        if done.stdout != b"good %d\n" % len(costs):
            sys.exit(f"{path}: {done.stdout.decode()}")
        return costs
