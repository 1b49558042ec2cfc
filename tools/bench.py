#!/usr/bin/env python3
"""Times verdicts on values of a document of twenty types: `typify lines` and `check`, and whatever else is found that can judge them.

    tools/bench.py PROGRAM [--values N] [--folder FOLDER] [--keep FOLDER]

Others are node's ajv, Python's fastjsonschema and jsonschema (each tenth value at most), and with --folder, which
tools/fetch_serde.sh makes, a program of serde's derived types: the module that `rust` prints. Each has to give the same
verdicts; the status is 1 where one doesn't. Times are seconds of one processor, the start of each program with them.
"""
import argparse
import json
import os
import random
import shutil
import subprocess
import sys
import tempfile

from real_serde import CARGO, SOURCES, put

DEPTH = "64"


# ---- the document and its values

def text(most=40):
    return {"type": "string", "maxLength": most}


def whole(least, greatest):
    return {"type": "integer", "minimum": least, "maximum": greatest}


def named(name):
    return {"$ref": f"#/definitions/{name}"}


def listed(item):
    return {"type": "array", "items": item}


def record(members, optional=()):
    return {"type": "object", "properties": members, "required": [name for name in members if name not in optional], "additionalProperties": False}


PARTS = {
    "Level": {"type": "string", "enum": ["debug", "info", "warning", "error"]},
    "Currency": {"type": "string", "enum": ["CHF", "EUR", "GBP", "JPY", "USD"]},
    "Address": record({"host": text(), "port": whole(0, 65535)}),
    "Money": record({"amount": {"type": "integer"}, "currency": named("Currency")}),
    "Person": record({"name": text(), "mail": text(), "age": whole(0, 255)}, ["mail"]),
    "Item": record({"title": text(), "count": whole(0, 4294967295), "price": named("Money")}),
    "Span": {"type": "array", "items": [{"type": "integer"}, {"type": "integer"}], "minItems": 2, "maxItems": 2},
    "Labels": {"type": "object", "additionalProperties": text()},
}

EVENTS = {
    "signed_in": {"who": named("Person"), "from": named("Address")},
    "signed_out": {"who": named("Person"), "after": whole(0, 4294967295)},
    "ordered": {"who": named("Person"), "items": listed(named("Item")), "total": named("Money")},
    "paid": {"order": {"type": "integer"}, "sum": named("Money")},
    "logged": {"level": named("Level"), "message": text(), "labels": named("Labels")},
    "measured": {"series": text(), "spans": listed(named("Span"))},
    "moved": {"from": named("Address"), "to": named("Address")},
    "joined": {"people": listed(named("Person")), "room": text()},
    "tagged": {"order": {"type": "integer"}, "tags": listed(text()), "urgent": {"type": "boolean"}},
    "limited": {"levels": listed(named("Level")), "per": named("Span")},
    "refunded": {"order": {"type": "integer"}, "items": listed(named("Item")), "reason": text()},
    "closed": {"order": {"type": "integer"}, "by": named("Person"), "labels": named("Labels")},
}


def document():
    branches = [record({"type": {"type": "string", "enum": [name]}, "at": {"type": "integer"}, **members}, ["at"]) for name, members in EVENTS.items()]
    return {"title": "Event", "oneOf": branches, "definitions": PARTS}


def value_of(schema, chance):
    if "$ref" in schema:
        return value_of(PARTS[schema["$ref"].rsplit("/", 1)[1]], chance)
    if "enum" in schema:
        return chance.choice(schema["enum"])
    kind = schema["type"]
    if kind == "string":
        return "".join(chance.choice("abcdefghijklmnopqrstuvwxyz äé\"") for _ in range(chance.randrange(4, 24)))
    if kind == "integer":
        return chance.randint(schema.get("minimum", -10**9), schema.get("maximum", 10**12))
    if kind == "boolean":
        return chance.random() < 0.5
    if kind == "array":
        items = schema["items"]
        return [value_of(it, chance) for it in (items if isinstance(items, list) else [items] * chance.randrange(5))]
    if "properties" not in schema:
        return {value_of(text(), chance): value_of(schema["additionalProperties"], chance) for _ in range(chance.randrange(4))}
    return {name: value_of(it, chance) for name, it in schema["properties"].items() if name in schema["required"] or chance.random() < 0.7}


def broken(value, chance):
    """One member left out, put in, or of another kind."""
    place = value
    while isinstance(place, dict) and chance.random() < 0.5:
        inside = [it for it in place.values() if isinstance(it, dict) and it]
        if not inside:
            break
        place = chance.choice(inside)
    name = chance.choice(sorted(place)) if place else "more"
    way = chance.randrange(3)
    if way == 0:
        place.pop(name, None)
    elif way == 1:
        place[name + "_"] = None
    else:
        place[name] = [place.get(name)]
    return value


def lines_of(count):
    chance, branches = random.Random(20), document()["oneOf"]
    for _ in range(count):
        value = value_of(chance.choice(branches), chance)
        yield json.dumps(broken(value, chance) if chance.random() < 0.1 else value, ensure_ascii=False, separators=(",", ":"))


# ---- programs

class Run:
    """What a program printed, and what it took: seconds of a processor, and the most megabytes that it held."""

    def __init__(self, words, source, folder, **others):
        printed = os.path.join(folder, "printed")
        with open(source, "rb") as given, open(printed, "wb") as out:
            child = subprocess.Popen(words, stdin=given, stdout=out, stderr=subprocess.PIPE, **others)
            said = child.stderr.read()
            _, status, used = os.wait4(child.pid, 0)
        child.returncode = os.waitstatus_to_exitcode(status)
        self.seconds, self.megabytes, self.status, self.said = used.ru_utime + used.ru_stime, used.ru_maxrss / 1024, child.returncode, said.decode()
        self.bytes = os.path.getsize(printed)
        self.printed = printed

    def lines(self):
        with open(self.printed, encoding="utf-8") as file:
            yield from (line.rstrip("\n") for line in file)


AJV = """
const Ajv = require('ajv'), fs = require('fs');
const ask = new (Ajv.default || Ajv)({strict: false}).compile(JSON.parse(fs.readFileSync(process.argv[2])));
const out = [];
for (const line of fs.readFileSync(0, 'utf8').split('\\n')) if (line) out.push(ask(JSON.parse(line)) ? '1' : '0');
fs.writeSync(1, out.join('\\n') + '\\n');
"""

PYTHON = """
import json, sys
schema = json.load(open(sys.argv[1]))
if sys.argv[2] == "fastjsonschema":
    import fastjsonschema
    ask, Refused = fastjsonschema.compile(schema), fastjsonschema.JsonSchemaException
    def admits(value):
        try:
            ask(value)
        except Refused:
            return False
        return True
else:
    import jsonschema
    admits = jsonschema.Draft7Validator(schema).is_valid
for line in sys.stdin:
    print(1 if admits(json.loads(line)) else 0)
"""

JUDGE = """
mod module;
use std::io::{BufRead, Write};

fn main() {
    let (from, to) = (std::io::stdin().lock(), std::io::stdout().lock());
    let mut to = std::io::BufWriter::new(to);
    for line in from.lines() {
        match serde_json::from_str::<module::ROOT>(&line.unwrap()) {
            Ok(value) => writeln!(to, "1 {}", serde_json::to_string(&value).unwrap()).unwrap(),
            Err(_) => writeln!(to, "0").unwrap(),
        }
    }
}
"""


def derived(program, schema, folder):
    """The path of a program of serde's derived types, by the module that `rust` prints."""
    module = subprocess.run([program, "rust", DEPTH], input=json.dumps(schema).encode(), stdout=subprocess.PIPE, check=True).stdout.decode()
    root = next(line.split()[-1] for line in module.split("\n") if line.startswith("// root "))
    crate = os.path.join(folder, "bench")
    put(os.path.join(crate, "Cargo.toml"), CARGO.replace("real_serde", "bench"))
    put(os.path.join(crate, ".cargo", "config.toml"), SOURCES)
    put(os.path.join(crate, "src", "module.rs"), module)
    put(os.path.join(crate, "src", "main.rs"), JUDGE.replace("ROOT", root))
    subprocess.run(["cargo", "build", "--offline", "--release", "--quiet"], cwd=crate, check=True)
    return os.path.join(crate, "target", "release", "bench")


def main():
    words = argparse.ArgumentParser(description=__doc__.split("\n")[0])
    words.add_argument("program")
    words.add_argument("--values", type=int, default=100_000, help="how many values (100000)")
    words.add_argument("--folder", help="the folder that tools/fetch_serde.sh made")
    words.add_argument("--keep", help="a folder in which the input is left")
    words = words.parse_args()
    if words.values < 1:
        sys.exit("bench: there is no value to judge")
    program = os.path.abspath(words.program)
    with tempfile.TemporaryDirectory() as room:
        folder = words.keep or room
        os.makedirs(folder, exist_ok=True)
        at = lambda name: os.path.join(folder, name)
        schema = document()
        with open(at("schema"), "w", encoding="utf-8") as file:
            json.dump(schema, file)
        inputs = [open(at(name), "w", encoding="utf-8") for name in ("values", "tenth", "lines", "check")]
        with inputs[0] as values, inputs[1] as tenth, inputs[2] as lines, inputs[3] as check:
            lines.write(json.dumps(schema) + "\n")
            check.write(f'{{"schema":{json.dumps(schema)},"values":[')
            for number, line in enumerate(lines_of(words.values)):
                values.write(line + "\n")
                lines.write(line + "\n")
                check.write(("," if number else "") + line)
                if number % 10 == 0:
                    tenth.write(line + "\n")
            check.write("]}")
        size = os.path.getsize(at("values"))
        print(f"{words.values} values, {size / 1e6:.1f} MB, {size / words.values:.0f} bytes each\n\n| by | values | µs a value | MB/s | MB held | against `lines` |\n|---|---|---|---|---|---|")
        wanted, per, failed = [], {}, 0

        def row(name, run, got, step=1):
            nonlocal failed
            count = (words.values + step - 1) // step
            per[name] = run.seconds / count
            print(f"| {name} | {count:,} | {per[name] * 1e6:.2f} | {size / step / 1e6 / run.seconds:.1f} | {run.megabytes:.0f} | {per[name] / per['`typify lines`']:.2f} |", flush=True)
            if run.status != 0 or got != wanted[::step]:
                failed = 1
                print(f"{name}: other verdicts, or status {run.status}: {run.said[-300:]}", file=sys.stderr)

        run = Run([program, "lines", DEPTH], at("lines"), room)
        wanted = [line.split(" ")[2] == "taken" for line in run.lines() if line.startswith("line ")]
        if len(wanted) != words.values:
            sys.exit(f"lines answered {len(wanted)} values, status {run.status}")
        row("`typify lines`", run, wanted)
        if os.path.getsize(at("check")) <= 16 << 20:
            run = Run([program, "check", DEPTH], at("check"), room)
            row("`typify check`", run, [line.split(" ")[2] == "taken" for line in run.lines() if line.startswith("value ")])
        else:
            print("`check` isn't asked: its input would be longer than 16 MiB", file=sys.stderr)
        if words.folder:
            run = Run([derived(program, schema, os.path.abspath(words.folder))], at("values"), room)
            row("serde's derived types", run, [line[0] == "1" for line in run.lines()])
        with open(os.path.join(room, "ajv.js"), "w") as file:
            file.write(AJV)
        if shutil.which("node") and subprocess.run(["node", "-e", "require('ajv')"], cwd=room, stderr=subprocess.DEVNULL).returncode == 0:
            run = Run(["node", os.path.join(room, "ajv.js"), at("schema")], at("values"), room)
            row("ajv", run, [line == "1" for line in run.lines()])
        for name, source, step in (("fastjsonschema", "values", 1), ("jsonschema", "tenth", 10)):
            if subprocess.run([sys.executable, "-c", f"import {name}"], stderr=subprocess.DEVNULL).returncode == 0:
                run = Run([sys.executable, "-c", PYTHON, at("schema"), name], at(source), room)
                row(name, run, [line == "1" for line in run.lines()], step)
        sys.exit(failed)


if __name__ == "__main__":
    main()
