#!/usr/bin/env python3
"""Compiles the modules that a built `typify` prints with rustc and serde, and compares what both make of values.

    tools/real_serde.py PROGRAM --folder FOLDER

tools/README.md says what it needs and what it shows.
"""

import argparse
import collections
import concurrent.futures
import json
import os
import re
import shlex
import subprocess
import sys
import threading

import looser
from emitted import all_types, item_of, literal, type_of, written

TOOLS = os.path.dirname(os.path.abspath(__file__))
TOP = os.path.dirname(TOOLS)

# Why a case isn't compiled, each by name with its reason.
LIMITS = {
    "long-array": "serde's traits hold of arrays of 32 places at most",
    "long-tuple": "std's traits hold of tuples of 12 places at most",
    "set-of-sets": "std's sets and maps have no Hash, so that neither can be an item of a set (inside an item of its own they can: "
                   "the module writes a Hash for it)",
}

# a function that gives a stated default: its name, and the literal of the default's text
STATED = re.compile(r'    pub fn (d[0-9]+)<T: DeserializeOwned>\(\) -> T \{\n        serde_json::from_str\(("(?:\\.|[^"\\])*")\)', re.S)

# ---- the program

class Program:
    def __init__(self, words):
        self.words = shlex.split(words)

    def page(self, word, depth, text):
        """The status and the lines of the page."""
        done = subprocess.run(self.words + [word, str(depth)], input=text.encode(), stdout=subprocess.PIPE, stderr=subprocess.DEVNULL)
        return done.returncode, done.stdout.decode().split("\n")[:-1]


def verdicts_of(lines):
    found = []
    for line in lines:
        match = re.fullmatch(r"value (\d+) (taken|refused) (.*)", line)
        if match:
            found.append((match[2], json.loads(match[3])))
    return found


# ---- cases

def number(text):
    """A number whose point is followed by zeros alone is whole, as the program reads it."""
    match = re.fullmatch(r"(-?\d+)\.0+", text)
    return int(match[1]) if match else float(text)


def loads(text):
    return json.loads(text, parse_float=number)


def cases_of(rows, further):
    """The depth and the input of each case, with where it comes from; each input once."""
    found = {}
    for place, line in enumerate(open(rows, encoding="utf-8"), 1):
        words, streams, text = (line.rstrip("\n").split("\t") + ["", ""])[:3]
        match = re.fullmatch(r"check (\d{1,3})", words)
        if match and not streams:
            found.setdefault(text, (int(match[1]), f"row {place}"))
    for place, line in enumerate(open(further, encoding="utf-8"), 1):
        if line.strip():
            case = loads(line)
            text = json.dumps({"schema": case["schema"], "values": case["values"]}, ensure_ascii=False)
            found.setdefault(text, (case.get("depth", 16), f"case {place}"))
    return [(depth, text, place) for text, (depth, place) in found.items()]


class Mixed(Exception):
    """The pages of two words on one document don't agree."""


class Case:
    def __init__(self, program, depth, text, place):
        self.place, self.depth, self.limit, self.errors = place, depth, None, []
        self.program = program
        status, lines = program.page("check", depth, text)
        self.is_page = status == 0
        if not self.is_page:
            return
        document = loads(text)
        self.schema, self.values = document["schema"], document["values"]
        self.verdicts = verdicts_of(lines)
        status, self.texts = self.printed(text)
        self.items = [item_of(text) for text in self.texts]
        self.read_module()

    # The module tells the type of the root in its comment, and the stated defaults in functions.
    def read_module(self):
        status, lines = self.program.page("rust", self.depth, json.dumps(self.schema, ensure_ascii=False))
        roots = [line for line in lines if line.startswith("// root ")]
        if status != 0 or len(self.verdicts) != len(self.values) or not roots:
            raise Mixed(f"{self.place}: the pages of `rust` and `check` don't agree")
        self.text = "".join(line + "\n" for line in lines)
        self.root = type_of(roots[0].removeprefix("// root "))
        self.stated = {f"typify_defaults::{name}": json.loads(literal(text)) for name, text in STATED.findall(self.text)}
        self.limit = self.limit_of()

    def printed(self, text):
        status, lines = self.program.page("items", self.depth, text)
        return status, lines[:-1]

    # ---- what isn't compiled

    def types(self):
        return [ty for one in [self.root] + [ty for item in self.items for ty in item.types()] for ty in all_types(one)]

    def limit_of(self):
        types = self.types()
        if any(ty[0] == "array" and ty[2] > 32 for ty in types):
            return "long-array"
        if any(ty[0] == "tuple" and len(ty[1]) > 12 for ty in types):
            return "long-tuple"
        if any(part[0] == "path" and part[1] in (looser.SET, looser.MAP) for ty in self.keys() for part in all_types(ty)):
            return "set-of-sets"
        return None

    def keys(self):
        """The types of the items of sets and of the names of maps."""
        return [ty[2][0] for ty in self.types() if ty[0] == "path" and ty[1] in (looser.SET, looser.MAP)]

    # ---- the module

    def module(self):
        return self.text + "\n".join([
            "",
            "pub fn typify_judged(typify_text: &str) -> ::serde_json::Value {",
            f"    super::judge::<{written(self.root)}>(typify_text)",
            "}",
        ]) + "\n"


# ---- the crate

CARGO = """[package]
name = "real_serde"
version = "0.0.0"
edition = "2021"

[dependencies]
serde = { version = "1", features = ["derive"] }
serde_json = "1"
uuid = { version = "1", default-features = false, features = ["std", "serde"] }
chrono = { version = "0.4", default-features = false, features = ["std", "serde"] }
regex = { version = "1", default-features = false, features = ["std"] }

[profile.dev]
debug = false
incremental = false

[workspace]
"""

# cargo's own name of the place that packages come from by default: the unpacked folder stands in for it
DEFAULT = "-".join(("crates", "io"))

SOURCES = f"""[source.{DEFAULT}]
replace-with = "unpacked"

[source.unpacked]
directory = "../registry"
"""


def put(path, text):
    os.makedirs(os.path.dirname(path), exist_ok=True)
    if not os.path.exists(path) or open(path, encoding="utf-8").read() != text:
        with open(path, "w", encoding="utf-8") as file:
            file.write(text)


PARTS = 8

PART = """#![recursion_limit = "4096"]
#![allow(dead_code, unused_imports, non_camel_case_types, non_snake_case, uncommon_codepoints)]
#![allow(mixed_script_confusables, confusable_idents)]
use real_serde::judge;
use serde_json::Value;

MODS
fn judged(case: usize, text: &str) -> Value {
    match case {
ARMS        _ => unreachable!(),
    }
}

fn main() {
    real_serde::answer_all(judged);
}
"""


def write_crate(folder, modules):
    """One package: a library, and programs that share the cases, so that several compilers work at once."""
    crate = os.path.join(folder, "crate")
    put(os.path.join(crate, "Cargo.toml"), CARGO)
    put(os.path.join(crate, ".cargo", "config.toml"), SOURCES)
    with open(os.path.join(TOOLS, "real_serde.rs"), encoding="utf-8") as fixed:
        put(os.path.join(crate, "src", "lib.rs"), fixed.read())
    for place, module in modules.items():
        put(os.path.join(crate, "src", "cases", f"case_{place}.rs"), module)
    for part in range(PARTS):
        places = [place for place in modules if place % PARTS == part]
        mods = "".join(f'#[path = "../cases/case_{place}.rs"]\nmod case_{place};\n' for place in places)
        arms = "".join(f"        {place} => case_{place}::typify_judged(text),\n" for place in places)
        put(os.path.join(crate, "src", "bin", f"part_{part}.rs"), PART.replace("MODS", mods).replace("ARMS", arms))
    return crate


def build(crate, jobs):
    """The paths of the programs by their numbers, and the errors of rustc by the number of the case."""
    done = subprocess.run(["cargo", "build", "--offline", "--keep-going", "--message-format=json", f"--jobs={jobs}"], cwd=crate,
                          stdout=subprocess.PIPE, stderr=subprocess.PIPE)
    errors, programs = collections.defaultdict(list), {}
    for line in done.stdout.decode().split("\n")[:-1]:
        message = json.loads(line)
        part = re.fullmatch(r"part_(\d+)", message.get("target", {}).get("name", ""))
        if message["reason"] == "compiler-artifact" and part:
            programs[int(part[1])] = message["executable"]
        if message["reason"] == "compiler-message" and message["message"]["level"].startswith("error"):
            files = [span["file_name"] for span in message["message"]["spans"]]
            places = {int(match[1]) for match in (re.search(r"case_(\d+)\.rs", file) for file in files) if match}
            for place in places:
                errors[place].append(message["message"]["message"])
            if not places and files:
                sys.exit(message["message"]["rendered"])
    if done.returncode != 0 and not errors:
        sys.exit(done.stderr.decode())
    return programs, errors


def compiled(folder, cases, jobs):
    """The programs, and the module of each case that compiles; the errors of the others are put into them. Cases of one text share a module."""
    first = {}
    of = {place: first.setdefault(case.module(), place) for place, case in cases.items()}
    modules = {place: text for text, place in first.items()}
    while True:
        programs, errors = build(write_crate(folder, modules), jobs)
        if not errors:
            return programs, {place: module for place, module in of.items() if module in modules}
        for place, found in errors.items():
            del modules[place]
            for case in (case for one, case in cases.items() if of[one] == place):
                case.errors = found


def answers(programs, asked):
    """What serde makes of each value that is asked of a module, in order."""
    found = [None] * len(asked)
    for part, program in programs.items():
        places = [i for i, (module, _) in enumerate(asked) if module % PARTS == part]
        lines = "".join(f"{asked[i][0]}\t{json.dumps(asked[i][1])}\n" for i in places)
        done = subprocess.run([program], input=lines.encode(), stdout=subprocess.PIPE, check=True)
        for i, line in zip(places, done.stdout.decode().split("\n")[:-1]):
            found[i] = json.loads(line)
    return found


# ---- the comparison

def seen_of(answer):
    if "taken" in answer:
        return ("taken", answer["taken"])
    return ("refused", answer["refused"]) if "refused" in answer else ("unwritten", answer["unwritten"])


def is_same(verdict, seen):
    return verdict[0] == seen[0] and (verdict[0] == "refused" or verdict[1] == seen[1])


def shown(answer):
    return f"{answer[0]} {json.dumps(answer[1], ensure_ascii=False)}"


def main():
    parser = argparse.ArgumentParser(description=__doc__.splitlines()[0])
    parser.add_argument("program", help="the built program, or a command that runs it, which is given the words")
    parser.add_argument("--folder", required=True, help="the folder that tools/fetch_serde.sh filled")
    parser.add_argument("--rows", default=os.path.join(TOP, "crates", "run_cases", "stdin"))
    parser.add_argument("--cases", default=os.path.join(TOOLS, "real_serde.jsonl"))
    parser.add_argument("--list", action="store_true", help="print each difference by design too")
    parser.add_argument("--jobs", type=int, default=os.cpu_count(), help="how many compilers cargo may run at once")
    words = parser.parse_args()
    folder = os.path.abspath(words.folder)

    program, faults, cases, without = Program(words.program), [], {}, 0

    def made(one):
        depth, text, place = one
        try:
            return Case(program, depth, text, place)
        except Mixed as fault:
            return fault

    with concurrent.futures.ThreadPoolExecutor(2) as pool:
        for case in pool.map(made, cases_of(words.rows, words.cases)):
            if isinstance(case, Mixed):
                faults.append(str(case))
            elif not case.is_page:
                without += 1
            else:
                cases[len(cases)] = case
    limits = collections.Counter(case.limit for case in cases.values() if case.limit)
    built, ready = compiled(folder, {place: case for place, case in cases.items() if not case.limit}, words.jobs)
    for case in cases.values():
        if case.errors:
            faults.append(f"{case.place} doesn't compile: {case.errors[0]}\n  {json.dumps(case.schema, ensure_ascii=False)}")

    asked = [(place, value, verdict) for place in ready for value, verdict in zip(cases[place].values, cases[place].verdicts)]
    kinds, same, differing = collections.Counter(), 0, 0
    for (place, value, verdict), pair in zip(asked, answers(built, [(ready[place], value) for place, value, _ in asked])):
        case, seen = cases[place], [seen_of(answer) for answer in pair]
        # two runs write a set in two orders, so that such a value counts as differing always
        by_chance = looser.is_unordered(case.items, case.root, value, case.stated)
        if all(is_same(verdict, one) for one in seen) and not by_chance:
            same += 1
            continue
        differing += 1
        for way, one in zip(("from text", "from a Value"), seen):
            if is_same(verdict, one) and not by_chance:
                continue
            found = looser.kinds_of(case.items, case.root, value, verdict, one, case.stated)
            told = (f"{case.place}, {way}: {json.dumps(case.schema, ensure_ascii=False)}\n  value {json.dumps(value, ensure_ascii=False)}\n"
                    f"  typify {shown(verdict)}\n  serde  {shown(one)}")
            if found is None:
                faults.append(told)
            else:
                kinds.update(found)
                if words.list:
                    print(f"by design ({', '.join(found)}) {told}")

    print(f"{len(ready)} cases compile, {sum(limits.values())} are left out, {without} have no page")
    for name, count in sorted(limits.items()):
        print(f"  {name}, {count}: {LIMITS[name]}")
    print(f"{same} values are read and written alike, of {len(asked)}; {differing} differ")
    for name, count in sorted(kinds.items()):
        print(f"  {name}, {count}: {looser.KINDS[name]}")
    for fault in faults:
        print(f"difference: {fault}")
    return 1 if faults else 0


def with_room(run):
    """What a function gives, with room for values and for chains of items as deep as the program takes them."""
    sys.setrecursionlimit(10**6)
    threading.stack_size(2**29)
    found = []
    thread = threading.Thread(target=lambda: found.append(run()))
    thread.start()
    thread.join()
    return found[0] if found else 3


if __name__ == "__main__":
    sys.exit(with_room(main))
