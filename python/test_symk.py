#!/usr/bin/env python3
"""Tests of symk.py: over hostile programs, over the examples, and `audit` over drawn tasks; and the examples of its docstrings.

Those that need the program take the one of SYMK_PROGRAM, else .symk/symk, and are skipped where there is none. Expected costs and ends are
those of docs/FORMATS.md and examples/README.md; those of drawn tasks come of a search over single states here (`cheapest`).
"""
import doctest
import heapq
import io
import itertools
import json
import os
import pickle
import pty
import random
import shutil
import signal
import subprocess
import sys
import tempfile
import threading
import time
import tracemalloc
import unittest
from pathlib import Path

TOP = Path(__file__).resolve().parent.parent
sys.path.insert(0, str(TOP / "python"))
import symk  # noqa: E402

EXAMPLES = TOP / "examples"
NAMED = os.environ.get("SYMK_PROGRAM") or str(TOP / ".symk" / "symk")
PROGRAM = os.path.abspath(NAMED) if os.path.isfile(NAMED) else None
if PROGRAM:
    os.environ["SYMK_PROGRAM"] = PROGRAM
# What rt try compiled is some tens of times slower, and doesn't run within a limit of memory; it gets fewer drawn tasks.
WITHIN = ["sh", "-c", 'ulimit -v 1000000; exec "$0" demo 1', PROGRAM or "false"]
DRAWN = 200 if subprocess.run(WITHIN, stdout=subprocess.DEVNULL, stderr=subprocess.DEVNULL).returncode == 0 else 20
needs_program = unittest.skipUnless(PROGRAM, "no built program: neither SYMK_PROGRAM nor .symk/symk")
ONE = "; plan 1\n; ops 0\n(switch-on)\n; cost = 1 (unit cost)\n"
TWO = "; plan 2\n; ops 0 1 0\n(switch-on)\n(switch-off)\n(switch-on)\n; cost = 3 (unit cost)\n"


class Case(unittest.TestCase):
    def setUp(self):
        self.folder = Path(tempfile.mkdtemp())
        self.addCleanup(shutil.rmtree, self.folder)

    def write(self, name, text):
        path = self.folder / name
        path.write_bytes(text if isinstance(text, bytes) else text.encode())
        return str(path)

    def program(self, text, status=0, then=""):
        """A program that writes a text, goes on as `then` says, and ends with a status."""
        out = self.write("out", text)
        path = self.write("program", "#!/bin/sh\necho $$ >%s/pid\ncat %s\n%s\nexit %d\n" % (self.folder, out, then, status))
        os.chmod(path, 0o755)
        return path

    def is_gone(self):
        """Whether the program has ended, a second later at most; where Python was killed, nobody may have waited for it yet."""
        pid = int((self.folder / "pid").read_text())
        for _ in range(50):
            try:
                if Path("/proc/%d/stat" % pid).read_text().rpartition(")")[2].split()[0] == "Z":
                    return True
            except OSError:
                return True
            time.sleep(0.02)
        return False

    def command(self, *words, program=None, **more):
        """Status, output and errors of the command line, in a folder of its own."""
        words = [sys.executable, "-B", str(TOP / "python" / "symk.py"), *map(str, words), *(["--program", program] if program else [])]
        done = subprocess.run(words, cwd=self.folder, capture_output=True, text=True, timeout=60, **more)
        return done.returncode, done.stdout, done.stderr


class Hostile(Case):
    """What is made of a program that doesn't do as it should."""

    def broken(self, program, pattern, plans=0, **wishes):
        found, got = symk.plans("task.sas", 3, program=program, **wishes), []
        with self.assertRaisesRegex(symk.Broken, pattern):
            for plan in found:
                got.append((plan.operators, plan.names))
        self.assertEqual((len(got), found.end), (plans, None))
        self.assertTrue(self.is_gone())

    def ended(self, text, status, why, plans, **wishes):
        found = symk.plans("task.sas", 3, program=self.program(text, status), **wishes)
        self.assertEqual((len(list(found)), found.end), (plans, symk.End(why, plans)))

    def test_a_list_and_its_ends(self):
        for status, why in ((0, "reached"), (0, "more"), (10, "exhausted"), (13, "bounded")):
            self.ended(ONE + TWO + "; %s 2\n" % why, status, why, 2)
        self.ended("; cost range\n", 31, "cost range", 0)
        self.ended("; exhausted 0\n", 10, "exhausted", 0)

    def test_a_block_is_split_up(self):
        plan = next(symk.plans("task.sas", 3, program=self.program(ONE + TWO + "; reached 2\n")))
        self.assertEqual((plan.number, plan.operators, plan.names, plan.cost, plan.unit), (1, (0,), ("switch-on",), 1, True))
        self.assertTrue(self.is_gone())

    def test_it_dies_in_mid_block(self):
        self.broken(self.program(ONE + TWO[:30], 1), "ended with status 1, having written last '; plan 2", 1)
        self.broken(self.program(ONE + TWO[:30], 0), "status 0", 1)
        self.broken(self.program(ONE, 0, "kill -9 $$"), "signal 9", 1)

    def test_it_ends_without_an_end(self):
        self.broken(self.program("", 0), "status 0")
        self.broken(self.program(ONE, 10), "status 10", 1)

    def test_an_end_that_is_not_its_own(self):
        self.broken(self.program(ONE + "; exhausted 1\n", 0), "status 0", 1)
        self.broken(self.program(ONE + "; reached 1\n", 10), "status 10", 1)
        self.broken(self.program(ONE + "; reached 2\n", 0), "can end", 1)
        self.broken(self.program(ONE + "; reached 1\n; reached 1\n", 0), "status 0", 1)

    def test_rubbish(self):
        self.broken(self.program("hello\n", 0), "hello")
        self.broken(self.program(ONE + "hello\n; cost = 3 (unit cost)\n", 0), "no block of a plan: 'hello", 1)
        self.broken(self.program(b"\x00\xff\n" * 9, 0), "status 0")

    def test_blocks_that_are_none(self):
        for old, new in (("plan 1", "plan 2"), ("ops 0", "ops 0 1"), ("ops 0", "ops"), ("ops 0", "ops 0 "), ("ops 0", "ops  0"), ("ops 0", "ops x"),
                         ("(switch", "switch"), ("on)", "on"), ("= 1", "= -1"), ("= 1", "= 18446744073709551616"), ("unit", "some"),
                         ("; ops", ";ops"), ("(switch-on)\n", "(switch-on)\n\n"), ("ops 0", "ops0"), ("ops 0", "ops0 1"), ("plan 1", "plan x"),
                         ("(switch-on)\n", ""), ("; ops 0\n", ""), ("; plan 1\n", ""), ("; plan 1\n; ops 0\n", ""), ("1 (unit", "1 x(unit")):
            self.broken(self.program(ONE.replace(old, new) + "; reached 1\n", 0), "no (block|first line|operators|steps)", 0)
        for old, new in (("ops 0 1 0", "ops 0  1"), ("ops 0 1 0", "ops 0 1 "), ("off)", "off"), ("(switch-off", "switch-off"), (")\n(switch-on)\n;", ")\n;")):
            self.broken(self.program(ONE + TWO.replace(old, new) + "; reached 2\n", 0), "no (block|operators|steps)", 1)

    def test_rubbish_without_end_is_not_held(self):
        tracemalloc.start()
        self.addCleanup(tracemalloc.stop)
        for text, then in (("", "yes"), ("; plan 1\n; ops 0\n", "yes '(x)'"), ("; plan 1\n; ops 0\n", "yes"), (ONE, "yes '; plan 2'")):
            self.broken(self.program(text, 0, then), "block of a plan", text.count("; cost"))
        self.assertLess(tracemalloc.get_traced_memory()[1], 1_000_000)

    def test_it_hangs(self):
        for text, plans, then in (("", 0, "sleep 60"), (ONE, 1, "sleep 60"), (ONE + TWO[:20], 1, "sleep 60"), (ONE, 1, "exec >&-; sleep 60")):
            found, start = symk.plans("task.sas", 3, program=self.program(text, 0, then), seconds=1.5), time.monotonic()
            self.assertEqual((len(list(found)), found.end), (plans, symk.End("timed out", plans)))
            self.assertLess(time.monotonic() - start, 10)
            self.assertTrue(self.is_gone())
        with self.assertRaisesRegex(symk.Stopped, "timed out"):
            symk.check("task.sas", "list.txt", program=self.program("", 0, "sleep 60"), seconds=0.2)

    def test_a_run_within_its_time_is_not_stopped(self):
        found = symk.plans("task.sas", 3, program=self.program(ONE + "; reached 1\n"), seconds=30)
        self.assertEqual((len(list(found)), found.end), (1, symk.End("reached", 1)))

    def test_leaving_the_loop_ends_it(self):
        found = symk.plans("task.sas", 3, program=self.program(ONE, 0, "sleep 60"))
        for plan in found:
            break
        self.assertTrue(self.is_gone())
        self.assertEqual((list(found), found.end), ([], None))
        for leave in (lambda found: found.close(), lambda found: None):
            found = symk.plans("task.sas", 3, program=self.program(ONE, 0, "sleep 60"))
            next(found)
            leave(found)
            found = None
            self.assertTrue(self.is_gone())
        with self.assertRaises(ZeroDivisionError), symk.plans("task.sas", 3, program=self.program(ONE, 0, "sleep 60")) as found:
            next(found)
            raise ZeroDivisionError
        self.assertTrue(self.is_gone())

    def test_closing_in_the_loop_ends_it(self):
        found, got = symk.plans("task.sas", 3, program=self.program(ONE, 0, "sleep 60")), []
        for plan in found:
            found.close()
            got.append(plan.number)
        self.assertEqual(got, [1])
        self.assertTrue(self.is_gone())

    def test_nothing_runs_before_the_first_plan_is_asked_for(self):
        symk.plans("task.sas", 3, program=self.program(ONE + "; reached 1\n"))
        self.assertFalse((self.folder / "pid").exists())

    def test_a_plan_comes_as_soon_as_its_block_is_out(self):
        found, start = symk.plans("task.sas", 3, program=self.program(ONE, 0, "sleep 60")), time.monotonic()
        self.assertEqual(next(found).number, 1)
        self.assertLess(time.monotonic() - start, 10)
        found.close()

    def test_out_of_memory(self):
        self.ended(ONE + TWO[:20], 40, "out of memory", 1)
        with self.assertRaisesRegex(symk.Stopped, "out of memory"):
            symk.refute("task.sas", "cert.txt", program=self.program("", 40))

    def test_limits_and_words(self):
        told = "; plan 1\n; ops\n; cost = '$(ulimit -v)' (unit cost)\n; reached 1"
        path = self.program("", 0, "echo \"$@\" >%s/words; echo '%s'" % (self.folder, told))
        plan = next(symk.plans("-task.sas", 7, mode="topk", search="forward", more=True, bound=9, after="earlier", mutex=True,
                               megabytes=100, program=path))
        self.assertEqual(plan.cost, 100_000_000 // 1024)
        self.assertEqual((self.folder / "words").read_text(), "plan ./-task.sas --k 7 --mode topk --search forward --more --bound 9"
                         " --after earlier --mutex\n")

    def test_refusals(self):
        usage = "usage: symk plan FILE --k K\n       symk demo N\n"
        for status, said, line, wanted in ((20, "line 21: wanted fact\n", 21, "fact"), (20, "line 1: wanted blank line\n", 1, "blank line"),
                                           (20, "plans line 4\n", 4, None), (21, usage, None, None), (22, "file too long\n", None, None),
                                           (23, "file unreadable\n", None, None), (14, "plans miss a plan of cost 8\n", None, None)):
            with self.assertRaises(symk.Refused) as caught:
                list(symk.plans("task.sas", 3, program=self.program(said, status)))
            why = caught.exception
            self.assertEqual((why.status, why.said, why.line, why.wanted), (status, said[:-1], line, wanted))
        self.broken(self.program("line x\n", 20), "status 20")
        self.broken(self.program("file unreadable\n", 20), "status 20")

    def test_one_plan_at_a_time_is_held(self):
        block = "; plan %d\n; ops" + " 0" * 200 + "\n" + "(step)\n" * 200 + "; cost = 200 (unit cost)\n"
        text = "".join(block % number for number in range(1, 3001)) + "; reached 3000\n"
        found, count = symk.plans("task.sas", 3000, program=self.program(text)), 0
        tracemalloc.start()
        self.addCleanup(tracemalloc.stop)
        for count, plan in enumerate(found, 1):
            self.assertEqual(plan.cost, 200)
        self.assertEqual((count, found.end), (3000, symk.End("reached", 3000)))
        self.assertLess(tracemalloc.get_traced_memory()[1], 600_000)

    def test_answers_that_are_none(self):
        for text, status in (("good\n", 0), ("good 3\n", 11), ("bad plan 3: loops\n", 0), ("good 3\ngood 3\n", 0), ("", 0), ("good 3", 0)):
            with self.assertRaises(symk.Broken):
                symk.check("task.sas", "list.txt", program=self.program(text, status))
        with self.assertRaisesRegex(symk.Broken, "more than a line"):
            symk.check("task.sas", "list.txt", program=self.program("", 0, "yes"))
        with self.assertRaises(symk.Broken):
            symk.refute("task.sas", "cert.txt", program=self.program("not shown\n", 16))
        self.assertEqual(symk.check("t", "l", program=self.program("bad plan 7: costs 9\n", 11)),
                         (False, "bad plan 7: costs 9", 7, "costs 9"))

    def test_a_certificate_that_breaks_off_is_not_kept(self):
        for text, status, error in (("symk-cert 1\nbits", 0, symk.Broken), ("symk-cert 1\n", 40, symk.Stopped), ("x\n", 15, symk.Broken),
                                    ("line 3: wanted count\n", 20, symk.Refused)):
            with self.assertRaises(error):
                symk.prove("task.sas", self.folder / "cert.txt", program=self.program(text, status))
            self.assertFalse((self.folder / "cert.txt").exists())
        self.assertFalse(symk.prove("task.sas", self.folder / "cert.txt", program=self.program("has a plan\n", 15)))
        self.assertFalse((self.folder / "cert.txt").exists())

    def test_which_program(self):
        with self.assertRaisesRegex(FileNotFoundError, "SYMK_PROGRAM"):
            next(symk.plans("task.sas", 3, program="/no/such/program"))
        found = symk.plans("task.sas", 3, program=["/bin/sh", self.program(ONE + "; reached 1\n")])
        self.assertEqual(len(list(found)), 1)
        program = self.program(ONE + "; reached 1\n")
        kept = os.environ.get("SYMK_PROGRAM")
        self.addCleanup(lambda: os.environ.pop("SYMK_PROGRAM") if kept is None else os.environ.update(SYMK_PROGRAM=kept))
        os.environ["SYMK_PROGRAM"] = program
        self.assertEqual(len(list(symk.plans("task.sas", 3))), 1)

    def test_the_command_line(self):
        self.assertEqual(self.command("t", "--k", 2, program=self.program(ONE + TWO + "; reached 2\n")), (0, ONE + TWO + "; reached 2\n", ""))
        status, out, _ = self.command("t", "--k", 2, "--json", program=self.program(ONE + TWO + "; exhausted 2\n", 10))
        self.assertEqual((status, json.loads(out)["plans"][1]),
                         (10, {"cost": 3, "actions": ["switch-on", "switch-off", "switch-on"], "operators": [0, 1, 0]}))
        self.assertEqual(json.loads(out)["end"], "exhausted 2")
        status, out, _ = self.command("t", "--k", 2, "--json", program=self.program("; exhausted 0\n", 10))
        self.assertEqual(json.loads(out), {"plans": [], "end": "exhausted 0", "unsolvable": True, "timeout_triggered": False})
        self.assertEqual(self.command("t", "--k", 2, program=self.program("line 2: wanted 3\n", 20))[::2],
                         (20, "symk.py: the program refused it: line 2: wanted 3\n"))
        self.assertEqual(self.command("t", "--k", 2, "--seconds", 1.5, program=self.program(ONE, 0, "sleep 60")),
                         (124, ONE, "symk.py: timed out\n"))
        self.assertEqual(self.command("t", "--k", 2, program=self.program(ONE + TWO[:9], 3))[:2], (70, ONE))

    def test_files_of_plans(self):
        self.write("sas_plan.3", "(old)\n")
        done = self.command("t", "--k", 2, "--plans-to", ".", program=self.program(ONE + TWO + "; more 2\n"))
        self.assertEqual(done, (0, "; more 2\n", ""))
        self.assertEqual([(self.folder / ("sas_plan.%d" % n)).read_text() for n in (1, 2)], [ONE, TWO])
        self.assertFalse((self.folder / "sas_plan.3").exists())

    def test_a_record_of_a_run(self):
        for program, words, end, plans in ((self.program(ONE + TWO + "; reached 2\n"), (), "reached", 2),):
            self.command("t", "--k", 2, "--record", "r.json", *words, program=program)
            said = json.loads((self.folder / "r.json").read_text())
            self.assertEqual((said["task"], said["end"], said["plans"], said["first"], said["last"]), ("t", end, plans, 1, 3))
            self.assertTrue(0 <= said["seconds"] < 10 and 0 < said["megabytes"] < 1000)
        self.command("t", "--k", 2, "--record", "r.json", program=self.program("line 2: wanted 3\n", 20))
        self.assertEqual(json.loads((self.folder / "r.json").read_text())["end"], "refused: line 2: wanted 3")

    def test_an_ended_command_ends_the_program(self):
        words = [sys.executable, "-B", str(TOP / "python" / "symk.py"), "t", "--k", "2", "--program", self.program(ONE, 0, "sleep 60")]
        for end in (signal.SIGTERM, signal.SIGINT, *([signal.SIGKILL] if shutil.which("setpriv") else [])):
            with subprocess.Popen(words, stdout=subprocess.PIPE) as process:
                process.stdout.readline()
                process.send_signal(end)
                process.wait()
            self.assertTrue(self.is_gone(), end)

    def test_threads(self):
        program, found = self.program(ONE, 0, "sleep 0.5; echo '; reached 1'"), []
        threads = [threading.Thread(target=lambda: found.append(symk.plans("task.sas", 3, program=program))) for _ in range(3)]
        first = symk.plans("task.sas", 3, program=program)
        threads.append(threading.Thread(target=lambda: next(first)))
        for thread in threads:
            thread.start()
            thread.join()
        self.assertEqual([len(list(one)) for one in found] + [len(list(first)), str(first.end)], [1, 1, 1, 0, "reached 1"])

    def test_progress_on_a_terminal(self):
        ours, theirs = pty.openpty()
        words = [sys.executable, "-B", str(TOP / "python" / "symk.py"), "t", "--k", "2", "--program",
                 self.program(ONE + TWO, 0, "sleep 1; echo '; reached 2'")]
        done = subprocess.run(words, stdout=subprocess.PIPE, stderr=theirs)
        os.close(theirs)
        said = os.read(ours, 100_000).decode()
        os.close(ours)
        self.assertEqual(done.stdout.decode(), ONE + TWO + "; reached 2\n")
        self.assertRegex(said, r"2 plans, the last costs 3, \d+ s")
        self.assertTrue(said.endswith("\r\x1b[K"))


class Lists(Case):
    """Lists in files."""

    def read(self, text):
        found = symk.read_list(io.BytesIO(text if isinstance(text, bytes) else text.encode()))
        return list(found), found.end

    def test_ends_and_line_ends(self):
        for text in (ONE + TWO + "; bounded 2\n", ONE + TWO + "; bounded 2", (ONE + TWO + "; bounded 2\n").replace("\n", "\r\n")):
            plans, end = self.read(text)
            self.assertEqual(([plan.operators for plan in plans], end), ([(0,), (0, 1, 0)], symk.End("bounded", 2)))
        self.assertEqual(self.read("")[1], None)
        self.assertEqual((len(self.read(ONE + TWO[:-1])[0]), self.read(ONE)[1]), (2, None))
        self.assertEqual(self.read(ONE.replace(" 1", " 001") + TWO)[0][0].cost, 1)

    def test_what_is_no_list(self):
        for text in ("x", ONE + "x\n", ONE + "; reached 2\n", TWO, ONE + TWO[:-20], "; reached 0\n" + ONE, ONE + "; reached 1\n\n"):
            with self.assertRaises(symk.Broken, msg=text):
                self.read(text)

    def test_names_of_any_bytes_come_back(self):
        text = ONE.encode().replace(b"switch-on", b"a \xff) ; cost = \xc3\xa9 (b")
        plan = self.read(text)[0][0]
        self.assertEqual((plan.block(), len(plan.names)), (text, 1))

    def test_a_long_block(self):
        plan = symk.Plan(range(300_000), ("step %d" % step for step in range(300_000)), 300_000)
        self.assertEqual(self.read(plan.block())[0], [plan])

    def alike(self, count):
        """Plans of 42 steps, whose first forty are the same."""
        chosen = [[*range(40), number % 7, number] for number in range(1, count + 1)]
        return [symk.Plan(steps, ["step %d" % step for step in steps], 42, number) for number, steps in enumerate(chosen, 1)]

    def test_plans_are_the_same_however_their_bytes_come(self):
        draw, plans, steps = random.Random(1), [], []
        for number in range(1, 401):
            steps = steps[:draw.choice([0, 1, 30, 40, 45, 48])] + [draw.randrange(99) for _ in range(draw.choice([0, 1, 3, 20]))]
            cost = len(plans) // 50
            plans.append(symk.Plan(steps, ["step; %d \u20ac" % step for step in steps], cost, number, draw.random() < 0.9))
        text, facts = b"".join(plan.block() for plan in plans), [(plan.operators, plan.names, plan.cost, plan.unit, plan.number) for plan in plans]
        for most in (1, 70, 5000, 1 << 20):
            source = io.BytesIO(text)
            source.read = lambda size, read=source.read: read(draw.randint(1, min(size, most)))
            found = symk.read_list(source)
            self.assertEqual([(plan.operators, plan.names, plan.cost, plan.unit, plan.number) for plan in found], facts)

    def test_what_is_wrong_with_one_of_many(self):
        plans = self.alike(60)
        blocks = [plan.block().decode() for plan in plans]
        for old, new in (("(step 0)", "step 0)"), ("39)\n", "39\n"), ("(step 3)\n", ""), ("(step 3)\n", "(step 3)\n\n"), (")\n;", "\n;"), ("ops 0 1", "ops 0 x"),
                         ("ops 0 1", "ops 0  1"), ("ops 0 1", "ops 1"), ("ops 0", "ops0 0"), (" 39 ", " 39 39 "), ("\n(step 0", " \n(step 0"),
                         ("plan ", "plan 9"), ("42 (unit", "42 (some"), ("; cost", "; cast")):
            for at in (0, 29, 58):
                damaged = blocks[:at] + [blocks[at].replace(old, new, 1)] + blocks[at + 1:]
                found, got = symk.read_list(io.BytesIO("".join(damaged).encode())), []
                with self.assertRaisesRegex(symk.Broken, "^(this is no (block|first line)|these are no (operators|steps)) ", msg=(old, new, at)):
                    for plan in found:
                        got.append((plan.operators, plan.names))
                self.assertEqual(got, [(plan.operators, plan.names) for plan in plans[:at]])
        blocks[29] = blocks[29].replace("(step 30)\n", "")
        with self.assertRaisesRegex(symk.Broken, "no block"):
            for plan in symk.read_list(io.BytesIO("".join(blocks).encode())):
                self.assertEqual(plan.cost, 42)

    def test_loops_and_next_take_from_one_list(self):
        text = "".join(plan.block().decode() for plan in self.alike(9)).encode()
        found = symk.read_list(io.BytesIO(text))
        self.assertEqual((next(found).number, [(one.number, other.number) for one, other in zip(found, found)]), (1, [(2, 3), (4, 5), (6, 7), (8, 9)]))
        found = symk.read_list(io.BytesIO(text))
        for plan in found:
            self.assertEqual(next(found).number, plan.number + 1)
            if plan.number == 5:
                break
        self.assertEqual((list(found), next(found, None)), ([], None))

    def test_plans_are_sent_elsewhere(self):
        text = b"".join(plan.block() for plan in self.alike(9))
        sent = pickle.loads(pickle.dumps(self.read(text)[0]))
        self.assertEqual(([plan.names for plan in sent], sent), ([plan.names for plan in self.alike(9)], self.alike(9)))

    def test_plans_by_hand(self):
        plans = [symk.Plan((0,), ("switch-on",), 1), symk.Plan((0, 1, 0), ("switch-on", "switch-off", "switch-on"), 3, number=2)]
        self.assertEqual(b"".join(plan.block() for plan in plans).decode(), ONE + TWO)
        self.assertEqual((plans, len({*plans, *self.read(ONE + TWO)[0]})), (self.read(ONE + TWO)[0], 2))



ENDS = {  # of lists of five plans: costs and end; loopless; unordered, where these differ
    "one-switch": ([1], "exhausted 1", None, None),
    "switch-and-back": ([1, 3, 5, 7, 9], "reached 5", ([1], "exhausted 1"), None),
    "two-switches": ([2, 2], "exhausted 2", None, ([2], "exhausted 1")),
    "goal-at-start": ([0], "exhausted 1", None, None),
    "no-plan": ([], "exhausted 0", None, None),
    "zero-costs": ([1] * 5, "reached 5", ([1], "exhausted 1"), None),
    "near-and-far": ([10 ** 12, 10 ** 12 + 1], "exhausted 2", None, None),
    "past-64-bits": ([], "cost range 0", None, None),
    "conditional-effects": ([1, 3, 5, 7, 9], "reached 5", ([1], "exhausted 1"), None),
    "axiom": ([1, 2], "exhausted 2", None, None),
    "blocks": ([8, 8, 9, 9, 10], "reached 5", None, None),
    "hanoi": ([31, 32, 32, 32, 32], "reached 5", None, None),
    "tiles": ([6, 8, 8, 8, 8], "reached 5", None, None),
}


@needs_program
class Examples(Case):
    def listed(self, name, k, **wishes):
        found = symk.plans(EXAMPLES / ("%s.sas" % name), k, **wishes)
        return [plan.cost for plan in found], str(found.end)

    def test_costs_and_ends(self):
        for name, (costs, end, loopless, unordered) in ENDS.items():
            self.assertEqual(self.listed(name, 5), (costs, end), name)
            if loopless:
                self.assertEqual(self.listed(name, 5, mode="loopless"), loopless, name)
            if unordered:
                self.assertEqual(self.listed(name, 5, mode="unordered"), unordered, name)

    def test_words(self):
        self.assertEqual(self.listed("switch-and-back", 3, more=True), ([1, 3, 5], "more 3"))
        self.assertEqual(self.listed("switch-and-back", 9, bound=4), ([1, 3], "bounded 2"))
        self.assertEqual(self.listed("blocks", 99, quality=100), ([8, 8], "bounded 2"))
        for search in ("forward", "backward", "bidirectional"):
            self.assertEqual(self.listed("near-and-far", 3, search=search, mutex=True), ([10 ** 12, 10 ** 12 + 1], "exhausted 2"))
        first = list(symk.plans(EXAMPLES / "switch-and-back.sas", 2))
        found = symk.plans(EXAMPLES / "switch-and-back.sas", 2, after=first)
        self.assertEqual(([plan.number for plan in found], found.end), ([3, 4], symk.End("reached", 4)))

    def test_names_are_those_of_the_operators(self):
        for name in ("switch-and-back", "tiles"):
            task = symk.read_task(symk.text_of(EXAMPLES / ("%s.sas" % name)))
            for plan in symk.plans(EXAMPLES / ("%s.sas" % name), 9):
                self.assertEqual(plan.names, tuple(task.operators[one].name for one in plan.operators))

    def test_refusals(self):
        cut = (EXAMPLES / "switch-and-back.sas").read_text().split("\n")[:20]
        for path, status, line, wanted in ((self.write("cut.sas", "\n".join(cut) + "\n"), 20, 21, "fact"), ("/no/such/file", 23, None, None)):
            for ask in (lambda: list(symk.plans(path, 3)), lambda: symk.check(path, []), lambda: symk.prove(path, self.folder / "cert"),
                        lambda: list(symk.audit(path, []))):
                with self.assertRaises(symk.Refused) as caught:
                    ask()
                self.assertEqual((caught.exception.status, caught.exception.line, caught.exception.wanted), (status, line, wanted))
        for wishes in ({"k": 0}, {"k": 3, "mode": "loopless", "search": "forward"}, {"k": 3, "bound": 3, "quality": 100}):
            with self.assertRaises(symk.Refused) as caught:
                list(symk.plans(EXAMPLES / "blocks.sas", **wishes))
            self.assertEqual(caught.exception.status, 21)
        with self.assertRaises(symk.Refused) as caught:
            list(symk.plans(EXAMPLES / "blocks.sas", 1, after=self.write("list", "x\n")))
        self.assertEqual((caught.exception.status, caught.exception.line), (20, 1))

    def test_certificates(self):
        path = self.folder / "cert.txt"
        self.assertTrue(symk.prove(EXAMPLES / "no-plan.sas", path))
        self.assertEqual(symk.refute(EXAMPLES / "no-plan.sas", path).said, "no plan")
        self.assertEqual(symk.refute(EXAMPLES / "one-switch.sas", self.write("all", "symk-cert 1\nbits 1\nnodes 0\nroot 1\nend\n")).said,
                         "not shown: goal")
        self.assertFalse(symk.prove(EXAMPLES / "one-switch.sas", path))
        self.assertFalse(path.exists())

    def test_the_command_line_from_another_folder(self):
        shutil.copy(EXAMPLES / "two-switches.sas", self.folder / "my task.sas")
        status, out, said = self.command("my task.sas", "--k", 5)
        self.assertEqual((status, out, said), (10, subprocess.run([PROGRAM, "plan", EXAMPLES / "two-switches.sas", "--k", "5"],
                                                                  capture_output=True, text=True).stdout, ""))
        self.assertEqual(self.command("my task.sas", "--k", 5, "--mode", "unordered", "--plans-to", "found")[:2], (10, "; exhausted 1\n"))
        self.assertEqual(os.listdir(self.folder / "found"), ["sas_plan.1"])
        self.assertEqual(self.command("audit", "my task.sas", "found", "--mode", "unordered", "--complete")[0], 0)
        self.assertEqual(self.command("audit", "my task.sas", "found", "--complete")[:2],
                         (17, "good: 1 plan, none twice, costs never falling\nnone missing: each plan that is cheaper than the last is there\n"
                          "not complete: the next plan costs 2\n"))


TRANSLATOR = """#!/usr/bin/env python3
import shutil, sys, time
domain, problem, option, task, *rest = sys.argv[1:]
assert option == "--sas-file" and rest == ["--keep-unimportant-variables"]
with open(domain) as file:
    words = file.read()
if words == "bad":
    sys.exit(3)
time.sleep(float(words))
with open(problem) as file:
    shutil.copy(file.read(), task)
"""


@needs_program
class Packages(Case):
    """The calls of other packages, by a translator that copies an example."""

    def setUp(self):
        super().setUp()
        self.translator = self.write("a translate.py", TRANSLATOR)
        self.domain = self.write("domain.pddl", "0")

    def problem(self, name):
        return self.write("problem.pddl", str(EXAMPLES / ("%s.sas" % name)))

    def test_topk(self):
        found = symk.plan_topk(self.domain, self.problem("near-and-far"), 5, translator=self.translator)
        self.assertEqual(found, {"plans": [{"cost": 10 ** 12, "actions": ["jump"]}, {"cost": 10 ** 12 + 1, "actions": ["near", "far"]}],
                                 "end": "exhausted 2", "unsolvable": False, "timeout_triggered": False})
        found = symk.plan_topk(domain_file=self.domain, problem_file=self.problem("no-plan"), number_of_plans_bound=5, timeout=60,
                               translator=[sys.executable, self.translator])
        self.assertEqual((found["plans"], found["unsolvable"]), ([], True))

    def test_the_translator_of_the_environment_and_other_folders(self):
        os.environ["SYMK_TRANSLATE"] = "%s '%s'" % (sys.executable, self.translator)
        here = os.getcwd()
        self.addCleanup(os.environ.pop, "SYMK_TRANSLATE")
        self.addCleanup(os.chdir, here)
        problem = self.problem("one-switch")
        os.chdir(self.folder)
        found = symk.plan_loopless("domain.pddl", os.path.basename(problem), 5)
        self.assertEqual((found["plans"], found["end"]), ([{"cost": 1, "actions": ["switch-on"]}], "exhausted 1"))

    def test_qualities(self):
        problem = self.problem("switch-and-back")
        for bound, count in ((1.0, 1), (3.0, 2), (4.99, 2), (5, 3), (7.0001, 4), (101.5, 51)):
            found = symk.plan_topq(self.domain, problem, quality_bound=bound, translator=self.translator)
            self.assertEqual((len(found["plans"]), found["end"]), (count, "bounded %d" % count), bound)
        self.assertEqual(symk.plan_topq(self.domain, problem, 9.5, number_of_plans_bound=3, translator=self.translator)["end"], "reached 3")
        self.assertEqual(len(symk.plan_unordered_topq(sas_file=EXAMPLES / "two-switches.sas", quality_bound=101)["plans"]), 1)
        self.assertEqual(symk.plan_loopless(sas_file=EXAMPLES / "switch-and-back.sas", quality_bound=2.5)["end"], "bounded 1")
        self.assertTrue(symk.plan_topq(sas_file=EXAMPLES / "no-plan.sas", quality_bound=1.333)["unsolvable"])
        with self.assertRaises(ValueError):
            symk.plan_topq(sas_file=EXAMPLES / "blocks.sas", quality_bound=0.9)

    def test_time_and_faults(self):
        found = symk.plan_topk(self.write("slow.pddl", "60"), self.problem("blocks"), 5, timeout=0.3, translator=self.translator)
        self.assertEqual((found["plans"], found["timeout_triggered"], found["unsolvable"]), ([], True, False))
        with self.assertRaises(subprocess.CalledProcessError):
            symk.plan_topk(self.write("bad.pddl", "bad"), self.problem("blocks"), 5, translator=self.translator)
        with self.assertRaisesRegex(ValueError, "SYMK_TRANSLATE"):
            symk.plan_topk(self.domain, self.problem("blocks"), 5)
        with self.assertRaisesRegex(ValueError, "sas_file"):
            symk.plan_topk(number_of_plans_bound=5)


# Drawn tasks, and their lists by a search over single states.

def drawn(seed):
    """The text of a small task: two or three variables, at times one derived, operators with conditions, costs from 0 on."""
    draw = random.Random(seed)
    ranges = [draw.randint(2, 3) for _ in range(draw.randint(2, 3))]
    count, derived, unit = len(ranges), draw.random() < 0.3, draw.random() < 0.3
    lines = ["begin_version", "3", "end_version", "begin_metric", "0" if unit else "1", "end_metric", str(count + derived)]
    for number, values in enumerate(ranges + [2] * derived):
        layer = 0 if number == count else -1
        lines += ["begin_variable", "v%d" % number, str(layer), str(values), *("x%d" % value for value in range(values)), "end_variable"]
    lines += ["0", "begin_state", *["0"] * (count + derived), "end_state"]
    goals = [(count, 1)] if derived else [(number, ranges[number] - 1) for number in draw.sample(range(count), draw.randint(1, 2))]
    lines += ["begin_goal", str(len(goals)), *("%d %d" % goal for goal in goals), "end_goal"]
    operators = draw.randint(4, 7)
    lines.append(str(operators))
    for number in range(operators):
        chosen = draw.sample(range(count), draw.randint(1, 2))
        prevails = [(one, draw.randrange(ranges[one])) for one in range(count) if one not in chosen and draw.random() < 0.3]
        effects = []
        for one in chosen:
            condition = "1 %d %d " % (chosen[0], draw.randrange(ranges[chosen[0]])) if draw.random() < 0.2 else "0 "
            before = draw.choice([-1, *range(ranges[one])])
            effects.append("%s%d %d %d" % (condition, one, before, draw.randrange(ranges[one])))
        lines += ["begin_operator", "op %d" % number, str(len(prevails)), *("%d %d" % fact for fact in prevails), str(len(effects)), *effects,
                  str(draw.choice([0, 1, 1, 2, 3])), "end_operator"]
    rules = [[(one, ranges[one] - 1)] for one in range(draw.randint(1, count))] if derived else []
    lines.append(str(len(rules)))
    for conditions in rules:
        lines += ["begin_rule", str(len(conditions)), *("%d %d" % fact for fact in conditions), "%d 0 1" % count, "end_rule"]
    return "\n".join(lines) + "\n"


def cheapest(task, mode, patience=20_000):
    """Cost and operators of the plans of a mode, the cheapest first, by all ways along which the goal is still reached."""
    arcs, waiting = {}, [task.initial]
    while waiting:
        state = waiting.pop()
        if state not in arcs:
            values = symk.closed(task, state)
            arcs[state] = [(number, one.cost, symk.successor(one, state, values)) for number, one in enumerate(task.operators)
                           if symk.holds(one.conditions, values)]
            waiting += [after for _, _, after in arcs[state]]
    goals = {state for state in arcs if symk.holds(task.goal, symk.closed(task, state))}
    left, grows = dict.fromkeys(goals, 0), True
    while grows:
        grows = False
        for state, leads in arcs.items():
            least = min((cost + left[after] for _, cost, after in leads if after in left), default=None)
            if least is not None and (state not in left or least < left[state]):
                left[state], grows = least, True
    queue, ticket, seen = [], itertools.count(), set()
    if task.initial in left:
        queue = [(left[task.initial], 0, next(ticket), 0, (), (task.initial,), False)]
    while queue and patience:
        _, length, _, cost, way, states, whole = heapq.heappop(queue)
        patience -= 1
        if whole:
            key = tuple(sorted(way)) if mode == "unordered" else way
            if key not in seen:
                seen.add(key)
                yield cost, way
            continue
        if states[-1] in goals:
            heapq.heappush(queue, (cost, length, next(ticket), cost, way, states, True))
        for number, more, after in arcs[states[-1]]:
            if after in left and not (mode == "loopless" and after in states):
                kept = states + (after,) if mode == "loopless" else (after,)
                heapq.heappush(queue, (cost + more + left[after], length + 1, next(ticket), cost + more, way + (number,), kept, False))
    if not patience:
        raise OverflowError


def drawn_lists(count, most=6):
    """As many tasks that have three plans at least: text, task, mode, up to `most` plans, and what the next one costs or None."""
    for seed in itertools.count():
        text, mode = drawn(seed), symk.MODES[seed % 3]
        task = symk.read_task(text)
        try:
            found = list(itertools.islice(cheapest(task, mode), most + 1))
        except OverflowError:
            continue
        if len(found) >= 3:
            count -= 1
            yield seed, text, task, mode, found[:most], found[most][0] if len(found) > most else None
        if count == 0:
            return


def as_plans(task, found):
    unit = all(operator.cost == 1 for operator in task.operators)
    return [symk.Plan(way, [task.operators[number].name for number in way], cost, unit=unit) for cost, way in found]


@needs_program
class Audit(Case):
    def said(self, path, plans, mode):
        return [verdict.said.split(":")[0] + (" " + verdict.said.split()[-1] if not verdict else "")
                for verdict in symk.audit(path, plans, mode=mode, complete=True)]

    def after(self, found, following):
        """What is said of a list that is good and misses nothing."""
        last = "complete" if following is None else "not complete %d" % following
        return ["good", "none missing", last]

    def test_drawn_tasks(self):
        tried, draw = {"right": 0, "left out": 0, "left out at the end": 0, "exchanged": 0, "doubled": 0, "spoilt": 0}, random.Random(0)
        for seed, text, task, mode, found, following in drawn_lists(DRAWN):
            path, plans = self.write("task.sas", text), as_plans(task, found)
            costs = [cost for cost, _ in found]
            self.assertEqual(self.said(path, plans, mode), self.after(found, following), (seed, mode))
            tried["right"] += 1

            place = draw.randrange(len(plans))
            fewer, cost = plans[:place] + plans[place + 1:], costs[place]
            missed = cost < fewer[-1].cost
            wanted = ["good", "missing %d" % cost] if missed else self.after(fewer, cost)
            self.assertEqual(self.said(path, fewer, mode), wanted, (seed, mode, place))
            tried["left out" if missed else "left out at the end"] += 1

            dearer = [place for place in range(1, len(plans)) if costs[place] > costs[place - 1]]
            if dearer:
                place = draw.choice(dearer)
                exchanged = plans[:place - 1] + [plans[place], plans[place - 1]] + plans[place + 1:]
                self.assertEqual(self.said(path, exchanged, mode), ["bad plan %d %d" % (place + 1, place)], (seed, mode, place))
                tried["exchanged"] += 1

            place = draw.randrange(len(plans))
            doubled = plans[:place + 1] + plans[place:]
            self.assertEqual(self.said(path, doubled, mode), ["bad plan %d %d" % (place + 2, place + 1)], (seed, mode, place))
            tried["doubled"] += 1

            place, spoilt = draw.randrange(len(plans)), list(plans)
            kept = plans[place]
            spoilt[place] = draw.choice([
                symk.Plan(kept.operators, kept.names, kept.cost + 1, unit=kept.unit), symk.Plan(kept.operators, kept.names, kept.cost, unit=not kept.unit),
                symk.Plan((*kept.operators, 99), (*kept.names, "op 99"), kept.cost, unit=kept.unit),
                symk.Plan(kept.operators, [name + "x" for name in kept.names], kept.cost, unit=kept.unit)])
            if spoilt[place].block() != kept.block():
                verdict = next(symk.audit(path, spoilt, mode=mode))
                self.assertEqual((verdict.good, verdict.plan), (False, place + 1), (seed, mode, place))
                tried["spoilt"] += 1
        self.assertEqual(tried["right"], DRAWN)
        self.assertGreater(min(tried.values()), DRAWN // 10, tried)
        print("audited lists of drawn tasks: %s%s" % (tried, "" if DRAWN == 200 else " (fewer than 200: the program isn't optimised)"))

    def test_files_of_other_planners(self):
        task = EXAMPLES / "switch-and-back.sas"
        for number, plan in enumerate(symk.plans(task, 12), 1):
            self.write("sas_plan.%d" % number, "".join("(%s)\n" % name.upper() for name in plan.names) + "; cost = %d (unit cost)\n" % plan.cost)
        self.assertEqual([verdict.good for verdict in symk.audit(task, self.folder)], [True, True])
        files = [self.folder / ("sas_plan.%d" % number) for number in range(12, 0, -1)]
        self.assertEqual([verdict.said for verdict in symk.audit(task, files)], ["bad plan 2: cheaper than plan 1 (sas_plan.11)"])
        self.assertEqual([verdict.good for verdict in symk.audit(task, files, by_cost=True)], [True, True])
        self.assertEqual([verdict.said for verdict in symk.audit(task, files[:4] + files[5:], by_cost=True)][1], "missing: a plan of cost 15")
        self.write("sas_plan.2", (self.folder / "sas_plan.2").read_text().replace("cost = 3", "cost = 2"))
        self.assertEqual([verdict.said for verdict in symk.audit(task, self.folder)], ["bad plan 2: costs 3 (sas_plan.2)"])
        self.write("sas_plan.2", "(fly home)\n")
        self.assertEqual(next(symk.audit(task, self.folder)),
                         (False, "bad plan 2: line 1: no operator of the task is named (fly home) (sas_plan.2)", 2,
                          "line 1: no operator of the task is named (fly home) (sas_plan.2)"))

    def test_lists_of_every_form(self):
        task = EXAMPLES / "two-switches.sas"
        both = [{"cost": 2, "actions": ["a-on", "b-on"]}, {"cost": 2, "actions": ["(b-on)", "(a-on)"]}]
        json_file = self.write("plans.json", json.dumps({"plans": both}))
        for lists, words in (
                (json_file, "good: 2;none missing;complete"), (self.write("one", "(a-on)\n(b-on)\n"), "good: 1;none missing;not complete"),
                (self.write("none", ""), "good: 0;none missing;not complete"), (self.write("end", "; exhausted 0\n"), "good: 0;none missing;not"),
                (self.write("list", "".join(plan.block().decode() for plan in symk.plans(task, 5))), "good: 2;none missing;complete"),
                (self.write("short", "(a-on)\n"), "bad plan 1: misses the goal (short)"),
                (self.write("words", "a-on\n"), "bad plan 1: line 1 is no step (words)")):
            said = [verdict.said for verdict in symk.audit(task, lists, complete=True)]
            self.assertEqual(len(said), words.count(";") + 1, said)
            for one, wanted in zip(said, words.split(";")):
                self.assertTrue(one.startswith(wanted), said)

    def test_complete_up_to_a_cost(self):
        task = EXAMPLES / "switch-and-back.sas"
        plans = list(symk.plans(task, 5))
        for count, wishes, said in ((4, {"bound": 8}, "complete: there is no other plan of cost at most 8"),
                                    (4, {"quality": 899}, "complete: there is no other plan of cost at most 8"),
                                    (4, {"bound": 9}, "not complete: the next plan costs 9"), (5, {"bound": 8}, "complete: there is no other"),
                                    (4, {"quality": 900}, "not complete: the next plan costs 9"), (1, {"quality": 100}, "complete: there is no"),
                                    (0, {"bound": 0}, "complete: there is no other"), (0, {"quality": 100}, "not complete: the next plan costs 1")):
            self.assertTrue(list(symk.audit(task, plans[:count], **wishes))[-1].said.startswith(said), (count, wishes))
        self.assertEqual(self.command("audit", EXAMPLES / "two-switches.sas", self.write("none", ""), "--bound", 1)[0], 0)
        self.assertTrue(list(symk.audit(EXAMPLES / "no-plan.sas", [], quality=100))[-1])

    def test_past_64_bits(self):
        self.assertEqual(str(list(symk.audit(EXAMPLES / "past-64-bits.sas", [], complete=True))[-1]),
                         "not complete: the next plan costs more than 64 bits hold")
        self.assertTrue(list(symk.audit(EXAMPLES / "past-64-bits.sas", [], bound=(1 << 64) - 1))[-1])
        said = [str(one) for one in symk.audit(EXAMPLES / "past-64-bits.sas", self.write("dear", "(big)\n(one)\n"))]
        self.assertEqual(said, ["bad plan 1: it costs 18446744073709551616, more than 64 bits hold (dear)"])

    def test_statuses(self):
        task, plans = EXAMPLES / "switch-and-back.sas", list(symk.plans(EXAMPLES / "switch-and-back.sas", 3))
        text = lambda plans: "".join(plan.block(number).decode() for number, plan in enumerate(plans, 1))
        for listed, options, status in ((plans, (), 0), (plans, ("--complete",), 17), (plans[1:], (), 14), (plans[::-1], (), 11),
                                        (plans[::-1], ("--by-cost",), 0)):
            self.assertEqual(self.command("audit", task, self.write("list", text(listed)), *options)[0], status)
        self.assertEqual(self.command("audit", self.write("task.sas", "x\n"), "list")[0], 20)
        self.assertEqual(self.command("audit", task, "no-such-list")[0], 70)


def load_tests(loader, tests, pattern):
    """The examples of the docstrings too, which run at the top of the repository."""
    if PROGRAM:
        here = os.getcwd()
        tests.addTests(doctest.DocTestSuite(symk, setUp=lambda _: os.chdir(TOP), tearDown=lambda _: os.chdir(here)))
    return tests


if __name__ == "__main__":
    unittest.main()
