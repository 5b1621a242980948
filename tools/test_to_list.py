#!/usr/bin/env python3
"""Tests of to_list.py over the examples. Expected texts follow from the tasks and from docs/FORMATS.md.

Where there is a built program (SYMK_PROGRAM, else .symk/symk), lists that it prints are also turned into plain plan files and back, and
checked.
"""
import os
import subprocess
import sys
import tempfile
import unittest
from pathlib import Path

TOP = Path(__file__).resolve().parent.parent
EXAMPLES = TOP / "examples"
PROGRAM = Path(os.environ.get("SYMK_PROGRAM") or TOP / ".symk" / "symk").absolute()


def listed(task, *plans, options=()):
    """Status, list and what was said, for a task's path and texts of plan files."""
    with tempfile.TemporaryDirectory() as folder:
        paths = []
        for number, text in enumerate(plans, 1):
            paths.append(Path(folder, "sas_plan.%d" % number))
            paths[-1].write_text(text)
        words = [sys.executable, str(TOP / "tools" / "to_list.py"), *options, str(task), *map(str, paths)]
        done = subprocess.run(words, stdout=subprocess.PIPE, stderr=subprocess.PIPE)
        return done.returncode, done.stdout.decode(), done.stderr.decode().replace(folder + "/", "")


def operators(text):
    return [line[len("; ops"):].split() for line in text.splitlines() if line.startswith("; ops")]


class ToList(unittest.TestCase):
    def renamed(self, example, *pairs):
        """An example with other names of operators."""
        text = (EXAMPLES / example).read_text()
        for old, new in pairs:
            self.assertEqual(text.count("\n%s\n" % old), 1)
            text = text.replace("\n%s\n" % old, "\n%s\n" % new)
        file = tempfile.NamedTemporaryFile("w", suffix=".sas")
        self.addCleanup(file.close)
        file.write(text)
        file.flush()
        return file.name

    def test_a_block_is_the_whole_text(self):
        done = listed(EXAMPLES / "one-switch.sas", "; found by hand\n\n( Switch-On )\n; cost = 1 (unit cost)\n")
        self.assertEqual(done, (0, "; plan 1\n; ops 0\n(switch-on)\n; cost = 1 (unit cost)\n", ""))

    def test_general_costs_are_summed(self):
        _, text, _ = listed(EXAMPLES / "near-and-far.sas", "(near)\n(far)\n", "(jump)\n")
        self.assertIn("; ops 0 1\n(near)\n(far)\n; cost = 1000000000001 (general cost)\n; plan 2\n; ops 2\n", text)

    def test_costs_rise_where_asked(self):
        _, text, _ = listed(EXAMPLES / "near-and-far.sas", "(near)\n(far)\n", "(jump)\n", options=["--by-cost"])
        self.assertEqual(operators(text), [["2"], ["0", "1"]])

    def test_equal_names_are_told_apart_by_what_applies(self):
        task = self.renamed("switch-and-back.sas", ("switch-on", "turn"), ("switch-off", "turn"))
        self.assertEqual(operators(listed(task, "(turn)\n(turn)\n(turn)\n")[1]), [["0", "1", "0"]])

    def test_equal_names_are_told_apart_by_the_goal(self):
        task = self.renamed("near-and-far.sas", ("near", "go"), ("jump", "go"))
        status, text, said = listed(task, "(go)\n", "(go)\n(far)\n")
        self.assertEqual((status, operators(text), said), (0, [["2"], ["0", "1"]], ""))

    def test_where_nothing_tells_them_apart_it_is_said(self):
        status, text, said = listed(EXAMPLES / "same-name-twice.sas", "(go)\n", "(go)\n")
        self.assertEqual((status, operators(text)), (0, [["0"], ["1"]]))
        self.assertIn("sas_plan.1: 2 ways have these names and lead to the goal; way 1 is taken", said)

    def test_rules_and_conditional_effects_are_run(self):
        task = self.renamed("axiom.sas", ("m1", "m"), ("m2", "m"))
        self.assertEqual(operators(listed(task, "(m)\n", "(m)\n(m)\n")[1]), [["0"], ["0", "1"]])
        self.assertEqual(listed(EXAMPLES / "axiom-layers.sas", "(go)\n")[2], "")
        self.assertEqual(listed(EXAMPLES / "conditional-effects.sas", "(swap)\n" * 3)[2], "")
        self.assertIn("leads to the goal", listed(EXAMPLES / "conditional-effects.sas", "(swap)\n" * 2)[2])

    def test_the_later_effect_stands(self):
        self.assertEqual(listed(EXAMPLES / "later-effect-reaches.sas", "(two)\n")[2], "")
        self.assertIn("leads to the goal", listed(EXAMPLES / "later-effect-undoes.sas", "(two)\n")[2])

    def test_the_empty_plan(self):
        self.assertEqual(listed(EXAMPLES / "goal-at-start.sas", "; no step\n")[1], "; plan 1\n; ops\n; cost = 0 (unit cost)\n")

    def test_what_cannot_be_written_is_refused(self):
        status, text, said = listed(EXAMPLES / "one-switch.sas", "(switch-of)\n", "(switch-on)\n")
        self.assertEqual((status, operators(text)), (1, [["0"]]))
        self.assertIn("sas_plan.1: line 1: no operator of the task is named (switch-of)", said)
        self.assertEqual(listed(EXAMPLES / "past-64-bits.sas", "(big)\n(one)\n")[0], 1)
        self.assertEqual(listed(EXAMPLES / "one-switch.sas", "switch-on\n")[0], 1)

    @unittest.skipUnless(PROGRAM.is_file(), "no built program: neither SYMK_PROGRAM nor .symk/symk")
    def test_lists_of_the_program_come_back_good(self):
        for task in sorted(EXAMPLES.glob("*.sas")):
            printed = subprocess.run([str(PROGRAM), "plan", str(task), "--k", "4"], stdout=subprocess.PIPE).stdout.decode()
            plans = [block.split("\n; cost")[0].split("\n", 2)[2:] for block in printed.split("; plan ")[1:]]
            if not plans:
                continue
            _, text, _ = listed(task, *("".join(plan) + "\n" for plan in plans))
            with tempfile.NamedTemporaryFile("w") as file:
                file.write(text)
                file.flush()
                done = subprocess.run([str(PROGRAM), "check", str(task), file.name], stdout=subprocess.PIPE)
            self.assertEqual(done.stdout.decode(), "good %d\n" % len(plans), task.name)


if __name__ == "__main__":
    unittest.main()
