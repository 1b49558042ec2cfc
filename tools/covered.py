#!/usr/bin/env python3
"""Pairs of schemas of the tables of cases are compared both ways, and each yes is tested on their values.

    covered.py PROGRAM [--pairs N]

PROGRAM, a built `typify`, is asked whether the items of one schema read what those of another write, of N pairs that are
drawn, both ways, and of as many schemas beside themselves. Where it says `covered`, each value that the old one takes, of
its row's own and of some that are drawn from all rows, is written back by it, and the new one must take that.

One line for each that is refused, and how many were covered and asked at the end. The status is 1 where one is refused."""

import argparse
import json
import os
import random
import sys

from described import is_small, ran, rows

VALUES_EACH = 40


def written(page):
    """What the values that are taken are written back as."""
    return [json.loads(line.split(" taken ", 1)[1]) for line in page.splitlines() if line.startswith("value ") and " taken " in line]


def main():
    words = argparse.ArgumentParser(description=__doc__.split("\n")[0])
    words.add_argument("program")
    words.add_argument("--pairs", type=int, default=100, metavar="N")
    words = words.parse_args()
    program = os.path.abspath(words.program)
    cases = [(schema, [value for value in values if is_small(value)]) for _, schema, values in rows()]
    pool = list({json.dumps(value): value for _, values in cases for value in values}.values())
    draw = random.Random(1)
    pairs = [pair for _ in range(words.pairs) for one in [draw.sample(cases, 2)] for pair in (one, one[::-1])]
    pairs += [(one, one) for one in draw.sample(cases, min(words.pairs, len(cases)))]
    covered = asked = 0
    refused = []
    for (old, values), (new, _) in pairs:
        status, _ = ran(program, ["covers", "64"], {"old": old, "new": new})
        if status != 0:
            continue
        covered += 1
        drawn = values + draw.sample(pool, min(VALUES_EACH, len(pool)))
        _, page = ran(program, ["check", "64"], {"schema": old, "values": drawn})
        back = written(page)
        _, page = ran(program, ["check", "64"], {"schema": new, "values": back})
        asked += len(back)
        if len(written(page)) != len(back):
            refused.append(f"{json.dumps(old)} {json.dumps(new)} {json.dumps(back)}")
    for line in refused:
        print(line)
    print(f"{len(pairs)} pairs, {covered} covered, {asked} values asked, {len(refused)} refused")
    return 1 if refused else 0


if __name__ == "__main__":
    sys.exit(main())
