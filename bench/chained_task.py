#!/usr/bin/env python3
"""chained_task.py RULES flat|layered > task.sas: axioms that follow from one another, in falling order.

Each derived variable has two rules, from the variable before it; the first follows from a switch, which the one operator turns
over. With `flat` all variables are in one layer, with `layered` each is in a layer of its own.
"""
import sys

rules, flat = int(sys.argv[1]), sys.argv[2] == "flat"
variables = rules // 2
lines = ["begin_version", "3", "end_version", "begin_metric", "0", "end_metric", str(variables + 1)]
lines += ["begin_variable", "switch", "-1", "2", "off", "on", "end_variable"]
for i in range(1, variables + 1):
    lines += ["begin_variable", f"d{i}", "0" if flat else str(i - 1), "2", "no", "yes", "end_variable"]
lines += ["0", "begin_state", *["0"] * (variables + 1), "end_state", "begin_goal", "0", "end_goal"]
lines += ["1", "begin_operator", "flip", "0", "2", "1 0 0 0 -1 1", "1 0 1 0 -1 0", "1", "end_operator", str(2 * variables)]
for i in range(variables, 0, -1):
    lines += ["begin_rule", "1", f"{i - 1} 1", f"{i} 0 1", "end_rule"]
    lines += ["begin_rule", "2", f"{i - 1} 1", "0 1", f"{i} 0 1", "end_rule"]
print("\n".join(lines))
