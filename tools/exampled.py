#!/usr/bin/env python3
"""Schemas of the tables of cases are asked for an example, which their own items must take.

    exampled.py PROGRAM [--count N]

Of each schema in the tables' rows PROGRAM, a built `typify`, is asked for an example; `check` must take what is printed.
Where it says `none`, none of the values of all rows whose numbers are i64 may be taken.

One line for each that differs, and how many had an example, had none, or were outside at the end. The status is 1 where
one differs, or fewer than N had an example."""

import argparse
import json
import os
import sys

from described import is_small, ran, rows, verdicts


def main():
    words = argparse.ArgumentParser(description=__doc__.split("\n")[0])
    words.add_argument("program")
    words.add_argument("--count", type=int, default=500, metavar="N")
    words = words.parse_args()
    program = os.path.abspath(words.program)
    cases = list(rows())
    pool = list({json.dumps(value): value for _, _, values in cases for value in values if is_small(value)}.values())
    made = none = outside = spent = 0
    differ = []
    for depth, schema, _ in cases:
        status, text = ran(program, ["example", depth], schema)
        if status == 0:
            made += 1
            _, page = ran(program, ["check", depth], {"schema": schema, "values": [json.loads(text)]})
            if verdicts(page) != ["taken"]:
                differ.append(f"refused: {json.dumps(schema)} {text}")
        elif status == 8 and text == "none\n":
            none += 1
            _, page = ran(program, ["check", depth], {"schema": schema, "values": pool})
            if len(verdicts(page)) != len(pool) or "taken" in verdicts(page):
                differ.append(f"none, and a value is taken, or not all were asked: {json.dumps(schema)}")
        elif status == 8:
            outside += 1
        elif status == 6:
            spent += 1
    for line in differ:
        print(line)
    print(f"{made} had an example, {none} had none, {outside} were outside, of {spent} memory ran out; {len(differ)} differ")
    return 1 if differ or made < words.count else 0


if __name__ == "__main__":
    sys.exit(main())
