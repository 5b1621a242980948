#!/usr/bin/env python3
"""plan_tasks.py KIND SIZE.. > task.sas: a task whose plans the scripts of this folder list. Each is the same at every run.

gripper N               A robot with two grippers carries N balls between two rooms.
hanoi N [PEGS]          N discs go from the first to the last of three pegs, or of so many.
board W H MOVES [ODD]   Sliding tiles on a board of W columns and H rows, MOVES random moves away from their goal. With ODD 1 two
                        tiles of the goal are exchanged, and there is no plan.
blocks N [SEED]         N blocks on a table, from random towers to random towers, with a hand that takes up one.
logistics C L P         P packages between C cities of L places each, with a truck in each city and one plane.
visitall W H [PART]     A robot visits the cells of a grid of W columns and H rows: all of them, or about PART in a hundred.
sokoban W H B WALLS SEED    A robot pushes B boxes on a grid with walls. A step costs nothing, a push 1.
psr N                   A power net of N switches and breakers, after a fault.
lights W H N [SEED]     W times H lamps, N of which were pressed: a press turns a lamp and its neighbours over.
roads N P [SEED]        One bus on N places with one-way roads, some free of charge, and P passengers.
counter N               One operator adds 1 to a number of N bits, from 0 until all are set.
switches N              N switches, each of which one operator turns over, and a rule that says that all are on.
circle COST             A wheel that operators of cost 1 and 2 turn to and fro, and a door that is opened at this cost.

What is random is drawn by SEED, by default 0. With a last word costs=MOST each operator costs what is drawn from 1 to MOST.
"""
import itertools
import random
import sys

from image_tasks import gripper, group, operator, psr, switches, task, variable


def neighbours(width, height):
    """Of each cell of a grid, row by row, those beside it."""
    cells = [(x, y) for y in range(height) for x in range(width)]
    sides = ((0, 1), (1, 0), (0, -1), (-1, 0))
    return {(x, y): [(x + i, y + j) for i, j in sides if (x + i, y + j) in cells] for x, y in cells}


def hanoi(discs, pegs=3):
    """The peg of each disc, the smallest first. A disc moves where no smaller one lies on its peg or on the new one."""
    variables = [variable(f"disc{d}", -1, [f"peg{p}" for p in range(pegs)]) for d in range(discs)]
    operators = []
    for d in range(discs):
        for p, q in itertools.permutations(range(pegs), 2):
            free = [peg for peg in range(pegs) if peg not in (p, q)]
            for at in itertools.product(free, repeat=d):
                name = f"move disc{d} peg{p} peg{q}" + ("" if pegs == 3 else " " + "".join(map(str, at)))
                operators.append(operator(name, list(enumerate(at)), [((), d, p, q)]))
    return task(variables, [0] * discs, [(d, pegs - 1) for d in range(discs)], operators, [])


def board(width, height, moves, odd=0):
    """The cell of each tile, and last that of the blank. In each cell there is one of them."""
    near, draw = neighbours(width, height), random.Random(0)
    cells = list(near)
    number, blank = {cell: i for i, cell in enumerate(cells)}, cells[-1]
    lies = {cell: i for i, cell in enumerate(cells)}
    for _ in range(moves):
        cell = draw.choice(near[blank])
        lies[blank], lies[cell], blank = lies[cell], lies[blank], cell
    tiles = len(cells) - 1
    initial = [0] * len(cells)
    for cell, tile in lies.items():
        initial[tile] = number[cell]
    names = [f"cell{x}-{y}" for x, y in cells]
    variables = [variable(f"tile{i}", -1, names) for i in range(tiles)] + [variable("blank", -1, names)]
    operators = [
        operator(f"move tile{i} {names[number[a]]} {names[number[b]]}", [],
                 [((), i, number[a], number[b]), ((), tiles, number[b], number[a])])
        for i in range(tiles) for a in cells for b in near[a]
    ]
    goal = [(i, i ^ 1 if odd and i < 2 else i) for i in range(tiles)]
    groups = [group([(i, at) for i in range(tiles + 1)]) for at in range(len(cells))]
    return task(variables, initial, goal, operators, [], groups)


def towers(count, draw):
    """On which block each block stands, or None for the table."""
    order, below, last = list(range(count)), {}, None
    draw.shuffle(order)
    for block in order:
        below[block] = last if last is not None and draw.random() < 0.6 else None
        last = block
    return below


def blocks(count, seed=0):
    """Whether the hand is full, where each block is, and whether each is clear. Place 0 is the table, 1 the hand.

    The hand is empty or holds one block. A block is clear, or it is in the hand, or one block stands on it.
    """
    draw = random.Random(seed)
    first, wanted = towers(count, draw), towers(count, draw)
    hand, place, clear = 0, range(1, count + 1), range(count + 1, 2 * count + 1)
    on = lambda block, other: 2 + other - (other > block)
    variables = [variable("hand", -1, ["empty", "full"])]
    for b in range(count):
        variables.append(variable(f"block{b}", -1, ["table", "hand"] + [f"on{c}" for c in range(count) if c != b]))
    variables += [variable(f"clear{b}", -1, ["no", "yes"]) for b in range(count)]
    initial = [0] + [0 if first[b] is None else on(b, first[b]) for b in range(count)]
    initial += [0 if b in first.values() else 1 for b in range(count)]
    operators = []
    for b in range(count):
        lift, lay = [((), hand, 0, 1), ((), clear[b], 1, 0)], [((), hand, 1, 0), ((), clear[b], -1, 1)]
        operators.append(operator(f"pick-up {b}", [], [*lift, ((), place[b], 0, 1)]))
        operators.append(operator(f"put-down {b}", [], [*lay, ((), place[b], 1, 0)]))
        for c in range(count):
            if c != b:
                operators.append(operator(f"stack {b} {c}", [], [*lay, ((), place[b], 1, on(b, c)), ((), clear[c], 1, 0)]))
                operators.append(operator(f"unstack {b} {c}", [], [*lift, ((), place[b], on(b, c), 1), ((), clear[c], -1, 1)]))
    groups = [group([(hand, 0), *[(place[b], 1) for b in range(count)]])]
    groups += [group([(clear[c], 1), (place[c], 1), *[(place[b], on(b, c)) for b in range(count) if b != c]]) for c in range(count)]
    goal = [(place[b], on(b, c)) for b, c in wanted.items() if c is not None]
    return task(variables, initial, goal, operators, [], groups)


def logistics(cities, places, packages):
    """Where each truck, the plane and each package is. The first place of a city has the airport.

    Each of them is at one place: the groups are the variables themselves.
    """
    draw = random.Random(0)
    sites = [(c, p) for c in range(cities) for p in range(places)]
    plane, package = cities, range(cities + 1, cities + 1 + packages)
    names = [f"site{c}-{p}" for c, p in sites] + [f"truck{c}" for c in range(cities)] + ["plane"]
    variables = [variable(f"truck{c}", -1, [f"site{c}-{p}" for p in range(places)]) for c in range(cities)]
    variables += [variable("plane", -1, [f"site{c}-0" for c in range(cities)])]
    variables += [variable(f"package{i}", -1, names) for i in range(packages)]
    initial, goal = [draw.randrange(places) for _ in range(cities)] + [draw.randrange(cities)], []
    for i in range(packages):
        start, end = draw.sample(range(len(sites)), 2)
        initial.append(start)
        goal.append((package[i], end))
    moves = [(f"drive{c}", c, p, q) for c in range(cities) for p in range(places) for q in range(places) if p != q]
    moves += [("fly", plane, c, d) for c in range(cities) for d in range(cities) if c != d]
    operators = [operator(f"{name} {a} {b}", [], [((), var, a, b)]) for name, var, a, b in moves]
    for i, var in enumerate(package):
        for at, (c, p) in enumerate(sites):
            rides = [(f"truck{c}", (c, p), len(sites) + c)] + [("plane", (plane, c), len(sites) + cities)] * (p == 0)
            for name, where, inside in rides:
                operators.append(operator(f"load {i} {name} {names[at]}", [where], [((), var, at, inside)]))
                operators.append(operator(f"unload {i} {name} {names[at]}", [where], [((), var, inside, at)]))
    sizes = [places] * cities + [cities] + [len(names)] * packages
    groups = [group([(var, val) for val in range(size)]) for var, size in enumerate(sizes)]
    return task(variables, initial, goal, operators, [], groups)


def visitall(width, height, part=100):
    """Where the robot is, and which cells it has visited."""
    near, draw = neighbours(width, height), random.Random(0)
    cells = list(near)
    number, start = {cell: i for i, cell in enumerate(cells)}, draw.randrange(len(cells))
    wanted = [i for i in range(len(cells)) if part == 100 or draw.randrange(100) < part]
    variables = [variable("robot", -1, [f"cell{x}-{y}" for x, y in cells])]
    variables += [variable(f"visited{x}-{y}", -1, ["no", "yes"]) for x, y in cells]
    initial = [start] + [int(i == start) for i in range(len(cells))]
    operators = [
        operator(f"move {number[a]} {number[b]}", [], [((), 0, number[a], number[b]), ((), 1 + number[b], -1, 1)])
        for a in cells for b in near[a]
    ]
    return task(variables, initial, [(1 + i, 1) for i in wanted], operators, [])


def pull(near, floor, draw, boxes):
    """Where the boxes are to stand, and where they and the robot do: pulled away from there, so that they can be pushed back."""
    goal = draw.sample(floor, boxes)
    at, robot = list(goal), draw.choice([cell for cell in floor if cell not in goal])
    for _ in range(60 * boxes):
        free = [cell for cell in near[robot] if cell in floor and cell not in at]
        if not free:
            break
        cell = draw.choice(free)
        behind = 2 * robot[0] - cell[0], 2 * robot[1] - cell[1]
        if behind in at and draw.random() < 0.7:
            at[at.index(behind)] = robot
        robot = cell
    return goal, at, robot


def sokoban(width, height, boxes, walls, seed):
    """Where the robot and each box is, and which cells are free of boxes."""
    near, draw = neighbours(width, height), random.Random(seed)
    wall = draw.sample(list(near), walls)
    floor = [cell for cell in near if cell not in wall]
    goal, at, robot = pull(near, floor, draw, boxes)
    number, names = {cell: i for i, cell in enumerate(floor)}, [f"cell{x}-{y}" for x, y in floor]
    clear = {cell: 1 + boxes + i for i, cell in enumerate(floor)}
    variables = [variable("robot", -1, names)] + [variable(f"box{b}", -1, names) for b in range(boxes)]
    variables += [variable(f"clear{x}-{y}", -1, ["no", "yes"]) for x, y in floor]
    initial = [number[robot]] + [number[cell] for cell in at] + [int(cell not in at) for cell in floor]
    operators = []
    for a, b in [(a, b) for a in floor for b in near[a] if b in floor]:
        step = ((), 0, number[a], number[b])
        operators.append(operator(f"walk {names[number[a]]} {names[number[b]]}", [(clear[b], 1)], [step], 0))
        to = 2 * b[0] - a[0], 2 * b[1] - a[1]
        if to in floor:
            for box in range(boxes):
                effects = [step, ((), 1 + box, number[b], number[to]), ((), clear[b], 0, 1), ((), clear[to], 1, 0)]
                operators.append(operator(f"push box{box} {names[number[b]]} {names[number[to]]}", [], effects, 1))
    return task(variables, initial, [(1 + b, number[cell]) for b, cell in enumerate(goal)], operators, [])


def counter(bits):
    """Each bit turns over where all lower ones are set."""
    variables = [variable(f"bit{i}", -1, ["no", "yes"]) for i in range(bits)]
    effects = [([(j, 1) for j in range(i)] + [(i, v)], i, -1, 1 - v) for i in range(bits) for v in (0, 1)]
    return task(variables, [0] * bits, [(i, 1) for i in range(bits)], [operator("add", [], effects)], [])


def lights(width, height, presses, seed=0):
    """Whether each lamp is on. All are to be off."""
    near, draw = neighbours(width, height), random.Random(seed)
    cells = list(near)
    number, initial = {cell: i for i, cell in enumerate(cells)}, [0] * len(cells)
    turned = {cell: [number[other] for other in [cell, *near[cell]]] for cell in cells}
    for _ in range(presses):
        for lamp in turned[draw.choice(cells)]:
            initial[lamp] ^= 1
    variables = [variable(f"lamp{x}-{y}", -1, ["off", "on"]) for x, y in cells]
    operators = [
        operator(f"press {x}-{y}", [], [(((lamp, v),), lamp, -1, 1 - v) for lamp in turned[x, y] for v in (0, 1)])
        for x, y in cells
    ]
    return task(variables, initial, [(i, 0) for i in range(len(cells))], operators, [])


def roads(places, passengers, seed=0):
    """Where the bus and each passenger is. A drive costs 0 to 5, to board costs nothing, to leave 1."""
    draw = random.Random(seed)
    variables = [variable("bus", -1, [f"place{i}" for i in range(places)])]
    variables += [variable(f"passenger{p}", -1, [f"place{i}" for i in range(places)] + ["bus"]) for p in range(passengers)]
    initial, goal = [0], []
    for p in range(passengers):
        start, end = draw.sample(range(places), 2)
        initial.append(start)
        goal.append((1 + p, end))
    ways = {(i, (i + 1) % places) for i in range(places)}
    ways |= {((i + 1) % places, i) for i in range(places) if draw.random() < 0.5}
    ways |= {tuple(draw.sample(range(places), 2)) for _ in range(places)}
    operators = []
    for a, b in sorted(ways):
        cost = 0 if draw.random() < 0.4 else draw.randrange(1, 6)
        operators.append(operator(f"drive {a} {b}", [], [((), 0, a, b)], cost))
    for p in range(passengers):
        for i in range(places):
            operators.append(operator(f"board {p} {i}", [(0, i)], [((), 1 + p, i, places)], 0))
            operators.append(operator(f"leave {p} {i}", [(0, i)], [((), 1 + p, places, i)], 1))
    return task(variables, initial, goal, operators, [])


def circle(cost):
    """Where the wheel stands, and whether the door is open."""
    variables = [variable("wheel", -1, ["here", "there"]), variable("door", -1, ["closed", "open"])]
    operators = [operator("turn", [], [((), 0, 0, 1)], 1), operator("turn-back", [], [((), 0, 1, 0)], 2),
                 operator("open", [(0, 1)], [((), 1, 0, 1)], cost)]
    return task(variables, [0, 0], [(1, 1)], operators, [])


def with_costs(lines, most):
    """The lines of a task with the costs drawn anew, from 1 to `most`."""
    draw, lines = random.Random(0), list(lines)
    lines[lines.index("begin_metric") + 1] = "1"
    for at, line in enumerate(lines):
        if line == "end_operator":
            lines[at - 1] = str(draw.randint(1, most))
    return lines


KINDS = {"gripper": gripper, "hanoi": hanoi, "board": board, "blocks": blocks, "logistics": logistics,
         "visitall": visitall, "sokoban": sokoban, "psr": psr, "lights": lights, "roads": roads, "counter": counter,
         "switches": switches, "circle": circle}

if __name__ == "__main__":
    words = sys.argv[1:]
    most = int(words.pop()[6:]) if words and words[-1].startswith("costs=") else None
    if len(words) < 2 or words[0] not in KINDS:
        sys.exit(__doc__)
    made = KINDS[words[0]](*map(int, words[1:]))
    sys.stdout.write("\n".join(with_costs(made, most) if most else made) + "\n")
