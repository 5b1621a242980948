#!/usr/bin/env python3
"""unsolvable_tasks.py KIND SIZE.. > task.sas: a task without a plan, whose certificate bench/prove.sh writes and checks.

gripper N  A robot with two grippers and N balls. The left gripper is to hold a ball and to be free.
board W H  Sliding tiles on a board of W columns and H rows. The first two tiles are to change places, and the others to stay.
pairs N    N lamps in a row, all off. An operator turns two neighbours over, and one lamp alone is to be on.
"""
import sys

import image_tasks
import plan_tasks
from image_tasks import operator, task, variable


def with_goal(lines, goal):
    """The task with these facts as its goal."""
    first, last = lines.index("begin_goal"), lines.index("end_goal")
    return [*lines[: first + 1], str(len(goal)), *[f"{var} {val}" for var, val in goal], *lines[last:]]


def gripper(balls):
    return with_goal(image_tasks.gripper(balls), [(3, 2), (1, 0)])


def board(width, height):
    tiles = width * height - 1
    return with_goal(plan_tasks.board(width, height, 0), [(0, 1), (1, 0)] + [(i, i) for i in range(2, tiles)])


def pairs(count):
    variables = [variable(f"lamp{i}", -1, ["off", "on"]) for i in range(count)]
    turned = [[((), var, val, 1 - val) for var, val in ((i, v), (i + 1, w))]
              for i in range(count - 1) for v in (0, 1) for w in (0, 1)]
    operators = [operator(f"turn {effects[0][1]} {effects[1][1]}", [], effects) for effects in turned]
    return task(variables, [0] * count, [(0, 1)] + [(i, 0) for i in range(1, count)], operators, [])


KINDS = {"gripper": gripper, "board": board, "pairs": pairs}

if __name__ == "__main__":
    if len(sys.argv) < 3 or sys.argv[1] not in KINDS:
        sys.exit(__doc__)
    sys.stdout.write("\n".join(KINDS[sys.argv[1]](*map(int, sys.argv[2:]))) + "\n")
