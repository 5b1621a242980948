#!/usr/bin/env python3
"""image_tasks.py KIND SIZE > task.sas: a task whose reachable states bench/images.sh finds.

gripper N   A robot with two grippers carries N balls between two rooms.
tiles N     The sliding tiles on a board of N rows and columns.
psr N       A power net: two rails with rungs between them. Its 3 breakers and N - 3 switches are open or closed, and rules
            say which lines are fed and which lead to a fault. N is 7 or more.
switches N  N switches, each of which one operator turns over, and a rule that says that all are on.
"""
import sys


def variable(name, layer, values):
    return ["begin_variable", name, str(layer), str(len(values)), *values, "end_variable"]


def operator(name, prevail, effects, cost=1):
    """An operator. An effect is (conditions, variable, value before or -1, value after)."""
    lines = ["begin_operator", name, str(len(prevail)), *[f"{var} {val}" for var, val in prevail], str(len(effects))]
    for conds, var, pre, post in effects:
        lines.append(" ".join(map(str, [len(conds), *[n for cond in conds for n in cond], var, pre, post])))
    return [*lines, str(cost), "end_operator"]


def rule(conds, var):
    """The variable gets the value 1 where it has 0 by default."""
    return ["begin_rule", str(len(conds)), *[f"{v} {val}" for v, val in conds], f"{var} 0 1", "end_rule"]


def group(facts):
    """A mutex group: facts (variable, value) of which at most one holds in each state that is reached."""
    return ["begin_mutex_group", str(len(facts)), *[f"{var} {val}" for var, val in facts], "end_mutex_group"]


def task(variables, initial, goal, operators, rules, groups=()):
    lines = ["begin_version", "3", "end_version", "begin_metric", "1", "end_metric", str(len(variables))]
    for one in variables:
        lines += one
    lines.append(str(len(groups)))
    for one in groups:
        lines += one
    lines += ["begin_state", *map(str, initial), "end_state"]
    lines += ["begin_goal", str(len(goal)), *[f"{var} {val}" for var, val in goal], "end_goal", str(len(operators))]
    for one in operators:
        lines += one
    lines.append(str(len(rules)))
    for one in rules:
        lines += one
    return lines


def gripper(balls):
    """The robot's room, whether each gripper is free, and where each ball is: room a, room b, left or right gripper.

    A gripper is free or holds one ball.
    """
    rooms, hands = ["a", "b"], ["left", "right"]
    robot, free, ball = 0, (1, 2), range(3, balls + 3)
    variables = [variable("robot", -1, [f"Atom at-robby(room{r})" for r in rooms])]
    variables += [variable(f"free-{h}", -1, [f"Atom free({h})", f"NegatedAtom free({h})"]) for h in hands]
    for i in range(balls):
        places = [f"Atom at(ball{i}, room{r})" for r in rooms] + [f"Atom carry(ball{i}, {h})" for h in hands]
        variables.append(variable(f"ball{i}", -1, places))
    operators = [operator(f"move room{rooms[r]} room{rooms[1 - r]}", [], [((), robot, r, 1 - r)]) for r in (0, 1)]
    for i in range(balls):
        for r in (0, 1):
            for h in (0, 1):
                pick = [((), free[h], 0, 1), ((), ball[i], r, 2 + h)]
                drop = [((), free[h], 1, 0), ((), ball[i], 2 + h, r)]
                operators.append(operator(f"pick ball{i} room{rooms[r]} {hands[h]}", [(robot, r)], pick))
                operators.append(operator(f"drop ball{i} room{rooms[r]} {hands[h]}", [(robot, r)], drop))
    groups = [group([(free[h], 0), *[(b, 2 + h) for b in ball]]) for h in (0, 1)]
    return task(variables, [0] * (balls + 3), [(b, 1) for b in ball], operators, [], groups)


def tiles(side):
    """The square of the blank (variable 0) and of each tile. At first the tiles lie backwards, the blank first.

    On each square there is one of them.
    """
    squares = side * side
    names = ["blank"] + [f"tile{i}" for i in range(1, squares)]
    variables = [variable(name, -1, [f"Atom at({name}, square{s})" for s in range(squares)]) for name in names]
    operators = []
    for tile in range(1, squares):
        for at in range(squares):
            row, column = divmod(at, side)
            for r, c in ((row - 1, column), (row, column - 1), (row, column + 1), (row + 1, column)):
                if 0 <= r < side and 0 <= c < side:
                    to = r * side + c
                    effects = [((), 0, to, at), ((), tile, at, to)]
                    operators.append(operator(f"move tile{tile} square{at} square{to}", [], effects))
    initial = [0] + [squares - tile for tile in range(1, squares)]
    groups = [group([(i, square) for i in range(squares)]) for square in range(squares)]
    return task(variables, initial, [(tile, tile - 1) for tile in range(1, squares)], operators, [], groups)


def psr(devices_wanted):
    """A net after a fault: the breakers have opened, and all switches are closed.

    A line is fed where closed switches join it to a closed breaker, and it is bad where they join it to a faulty line. A
    switch between two fed lines is under load, and then nobody turns it. To close a switch between a fed line and a bad one
    opens all breakers, and a breaker that is closed on a bad line opens at once. Where the number of devices asks for one or
    two switches more, the low rail goes on past the last rung.
    """
    opened, closed, no, yes = 0, 1, 0, 1
    columns, rest = divmod(devices_wanted - 1, 3)
    if columns < 2:
        sys.exit(__doc__)
    lines = [(rail, column) for column in range(columns) for rail in ("top", "low")]
    lines += [("low", columns + i) for i in range(rest)]
    breaker_lines = [("top", 0), ("low", columns // 2), ("top", columns - 1)]
    faulty = [("low", columns // 4), ("top", columns - 1 - columns // 4)]
    devices = []  # each with the lines that it joins, a breaker with one
    for column in range(columns):
        for line in breaker_lines:
            if line[1] == column:
                devices.append((line,))
        devices.append((("top", column), ("low", column)))
        if column + 1 < columns:
            devices += [((rail, column), (rail, column + 1)) for rail in ("top", "low")]
    devices += [(("low", columns + i - 1), ("low", columns + i)) for i in range(rest)]
    name_of = ["-".join(f"{rail}{column}" for rail, column in joined) for joined in devices]
    breakers = [d for d, joined in enumerate(devices) if len(joined) == 1]
    switches = [d for d, joined in enumerate(devices) if len(joined) == 2]
    count = len(devices)
    fed = {line: count + i for i, line in enumerate(lines)}
    bad = {line: count + len(lines) + i for i, line in enumerate(lines)}
    load = {switch: count + 2 * len(lines) + i for i, switch in enumerate(switches)}
    variables = [variable(f"device-{name}", -1, ["open", "closed"]) for name in name_of]
    variables += [variable(f"fed-{rail}{column}", 0, ["no", "yes"]) for rail, column in lines]
    variables += [variable(f"bad-{rail}{column}", 0, ["no", "yes"]) for rail, column in lines]
    variables += [variable(f"load-{name_of[switch]}", 1, ["no", "yes"]) for switch in switches]
    operators, rules = [], []
    for d, joined in enumerate(devices):
        if len(joined) == 1:
            operators.append(operator(f"open {name_of[d]}", [], [((), d, closed, opened)]))
            trips = (((bad[joined[0]], yes),), d, -1, opened)
            operators.append(operator(f"close {name_of[d]}", [], [((), d, opened, closed), trips]))
        else:
            idle = [(load[d], no)]
            trips = [(((fed[a], yes), (bad[b], yes)), breaker, -1, opened)
                     for a, b in (joined, joined[::-1]) for breaker in breakers]
            operators.append(operator(f"open {name_of[d]}", idle, [((), d, closed, opened)]))
            operators.append(operator(f"close {name_of[d]}", idle, [((), d, opened, closed), *trips]))
    for breaker in breakers:
        rules.append(rule([(breaker, closed)], fed[devices[breaker][0]]))
    for line in faulty:
        rules.append(rule([], bad[line]))
    for kind in (fed, bad):
        for switch in switches:
            a, b = devices[switch]
            rules.append(rule([(switch, closed), (kind[a], yes)], kind[b]))
            rules.append(rule([(switch, closed), (kind[b], yes)], kind[a]))
    for switch in switches:
        rules.append(rule([(fed[line], yes) for line in devices[switch]], load[switch]))
    initial = [opened if d in breakers else closed for d in range(count)] + [no] * (len(variables) - count)
    goal = [(fed[line], yes) for line in lines if line not in faulty]
    return task(variables, initial, goal, operators, rules)


def switches(count):
    variables = [variable(f"s{i}", -1, ["off", "on"]) for i in range(count)] + [variable("all", 0, ["no", "yes"])]
    operators = [operator(f"flip {i}", [], [(((i, 0),), i, -1, 1), (((i, 1),), i, -1, 0)]) for i in range(count)]
    return task(variables, [0] * (count + 1), [(count, 1)], operators, [rule([(i, 1) for i in range(count)], count)])


KINDS = {"gripper": gripper, "tiles": tiles, "psr": psr, "switches": switches}

if __name__ == "__main__":
    if len(sys.argv) != 3 or sys.argv[1] not in KINDS:
        sys.exit(__doc__)
    sys.stdout.write("\n".join(KINDS[sys.argv[1]](int(sys.argv[2]))) + "\n")
