#!/usr/bin/env python3
"""Schemas of the tables of cases are described, compiled again, and asked of the same values.

    described.py PROGRAM [--count N]

Of each schema in the tables' rows that PROGRAM, a built `typify`, compiles and describes, the description is given to
`check` at a depth of its node count. There must be no note, and it must take exactly the values that the schema's own
items take: of the row's own values, and of values drawn from all rows.

One line for each that differs, and how many were described, weren't plain, or weren't compiled at the end. The status
is 1 where one differs, or fewer than N were described."""

import argparse
import json
import os
import random
import subprocess
import sys

TOP = os.path.dirname(os.path.dirname(os.path.realpath(__file__)))
VALUES_EACH = 120


def rows():
    """The depth, schema and values of each row that has a schema, each schema once."""
    seen = set()
    for table in ("run_cases", "typify_convert_cases", "merge_cases", "schema_cases"):
        with open(f"{TOP}/crates/{table}/stdin", encoding="utf-8") as file:
            lines = file.read().splitlines()
        for line in lines:
            front, brace, _ = line.partition("{")
            try:
                found, _ = json.JSONDecoder().raw_decode(line[len(front):])
            except ValueError:
                continue
            values, depth = [], "64"
            if table == "run_cases":
                words = front.split("\t")[0].split(" ")
                if words[0] not in ("check", "items") or len(words) != 2 or found.keys() != {"schema", "values"}:
                    continue
                found, values, depth = found["schema"], found["values"], words[1]
            key = json.dumps(found)
            if key not in seen:
                seen.add(key)
                yield depth, found, values if isinstance(values, list) else []


def is_small(value):
    """Whether its numbers are i64."""
    if isinstance(value, bool) or value is None or isinstance(value, str):
        return True
    if isinstance(value, list):
        return all(map(is_small, value))
    if isinstance(value, dict):
        return all(map(is_small, value.values()))
    return isinstance(value, int) and -2**63 <= value < 2**63


def nodes(schema):
    """At least as many as there are schemas in it."""
    if isinstance(schema, dict):
        return 1 + sum(map(nodes, schema.values()))
    if isinstance(schema, list):
        return sum(map(nodes, schema))
    return 1


def ran(program, words, document):
    """The status, and what was printed."""
    done = subprocess.run([program, *words], input=json.dumps(document).encode(), capture_output=True)
    return done.returncode, done.stdout.decode()


def verdicts(page):
    """Whether each value is taken."""
    return [line.split(" ")[2] for line in page.splitlines() if line.startswith("value ")]


def main():
    words = argparse.ArgumentParser(description=__doc__.split("\n")[0])
    words.add_argument("program")
    words.add_argument("--count", type=int, default=500, metavar="N")
    words = words.parse_args()
    program = os.path.abspath(words.program)
    cases = list(rows())
    pool = list({json.dumps(value): value for _, _, values in cases for value in values if is_small(value)}.values())
    draw = random.Random(1)
    described = not_plain = not_compiled = asked = 0
    differ = []
    for depth, schema, values in cases:
        status, text = ran(program, ["describe", depth], schema)
        if status == 8:
            not_plain += 1
            continue
        if status != 0:
            not_compiled += 1
            continue
        description = json.loads(text)
        values = [value for value in values if is_small(value)] + draw.sample(pool, min(VALUES_EACH, len(pool)))
        first = ran(program, ["check", depth], {"schema": schema, "values": values})
        second = ran(program, ["check", str(min(512, nodes(description)))], {"schema": description, "values": values})
        described += 1
        asked += len(values)
        shown = json.dumps(schema)
        if first[0] != 0:
            # want of memory: a value that is read in too many levels
            if second[0] != first[0]:
                differ.append(f"{shown}: statuses {first[0]} and {second[0]}")
        elif second[0] != 0:
            differ.append(f"{shown}: its description has status {second[0]}: {second[1].splitlines()[:1]}")
        elif any(line.startswith("note ") for line in second[1].splitlines()):
            differ.append(f"{shown}: its description has a note")
        elif len(verdicts(first[1])) != len(values) or verdicts(first[1]) != verdicts(second[1]):
            pairs = zip(values, verdicts(first[1]), verdicts(second[1]))
            differ += [f"{shown}: {json.dumps(value)}: {one!r}, {other!r}" for value, one, other in pairs if one != other][:1]
    for line in differ:
        print(line)
    print(f"{described} described, {asked} values asked, {len(differ)} differ; {not_plain} weren't plain, {not_compiled} weren't compiled")
    return 1 if differ or described < words.count else 0


if __name__ == "__main__":
    sys.exit(main())
