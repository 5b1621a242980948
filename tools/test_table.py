#!/usr/bin/env python3
"""Tests of table.py, on records that are written by hand."""
import json
import subprocess
import sys
import tempfile
import unittest
from pathlib import Path

RUN = {"task": "t/gripper-2.sas", "k": 10, "mode": "topk", "end": "reached", "plans": 10, "first": 11, "last": 12, "seconds": 0.5, "clock": 0.6,
       "megabytes": 14}
OTHERS = [dict(RUN, task="t/gripper-10.sas", end="timed out", plans=0, first=None, last=None, seconds=300.0),
          {"task": "t/hanoi.sas", "k": 10, "mode": "topk", "end": "running", "plans": 0, "first": None, "last": None},
          dict(RUN, task="t/gripper-2.sas", mode="loopless", end="exhausted", plans=1, last=11)]


class Table(unittest.TestCase):
    def made(self, *words):
        with tempfile.TemporaryDirectory() as folder:
            for number, one in enumerate([*OTHERS, RUN]):
                Path(folder, "%d.json" % number).write_text(json.dumps(one))
            done = subprocess.run([sys.executable, "-B", str(Path(__file__).parent / "table.py"), *words, folder], stdout=subprocess.PIPE)
        return done.stdout.decode()

    def test_markdown(self):
        self.assertEqual(self.made(), """\
| task | k | mode | solved | plans | first | last | end | seconds | megabytes |
|---|---|---|---|---|---|---|---|---|---|
| gripper-2 | 10 | loopless | yes | 1 | 11 | 11 | exhausted | 0.50 | 14 |
| gripper-2 | 10 | topk | yes | 10 | 11 | 12 | reached | 0.50 | 14 |
| gripper-10 | 10 | topk | no | 0 |  |  | timed out | 300.00 | 14 |
| hanoi | 10 | topk | no | 0 |  |  | running |  |  |

Solved 2 of 4: 1 exhausted; 1 reached; 1 timed out; 1 running.
""")

    def test_csv(self):
        self.assertEqual(self.made("--csv").splitlines()[:2], ["task,k,mode,solved,plans,first,last,end,seconds,megabytes",
                                                               "gripper-2,10,loopless,yes,1,11,11,exhausted,0.50,14"])


if __name__ == "__main__":
    unittest.main()
