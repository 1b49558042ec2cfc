#!/usr/bin/env python3
"""What `typify explain` says of schema files as they are shipped, each after tools/bundle: one row of a table a file, and how many rows of each kind.

    tools/packaged.py PROGRAM [--folder FOLDER] FILE..

A row has the file's name, its size, either the items and notes or the first fault with the kind of it, and how many things
tools/bundle left as they were. With
--folder, which tools/fetch_serde.sh makes, the modules that `rust` prints of those that compile are checked by rustc in
one package, and rows whose module isn't accepted say so. A file that was seen before is left out. The status is 1 where
rustc refuses a module.
"""
import argparse
import collections
import json
import os
import re
import subprocess
import sys

from real_serde import CARGO, SOURCES, put

TOOLS = os.path.dirname(os.path.abspath(__file__))
DEPTH = "64"


def bundled(file):
    """The text of the schema that tools/bundle makes of the file, and what it left."""
    done = subprocess.run([os.path.join(TOOLS, "bundle"), file], stdout=subprocess.PIPE, stderr=subprocess.PIPE)
    if done.returncode > 1:
        return None, done.stderr.decode().strip()
    # the member as it is written
    text = done.stdout.decode()
    at = len(re.match(r'\s*\{\s*"schema"\s*:\s*', text)[0])
    return text[at:json.JSONDecoder().raw_decode(text, at)[1]], done.stderr.decode().strip()


def told(page):
    """The kind of row, and what it says."""
    lines = page.split("\n")
    if lines[0] == "compiles":
        notes = sum(line.startswith("note ") for line in lines)
        return "compiles", f"{lines[1].split(' ')[1]} items, {notes} notes" if notes else f"{lines[1].split(' ')[1]} items"
    fault, place = lines[0].split(" ", 2)[1:] if lines[0].startswith("fault ") else ("", "")
    kind = next((line.split(" ", 1)[1] for line in lines if line.startswith("kind ")), "")
    return f"{fault} {kind}".strip(), f"{fault} {kind} {place}".replace("  ", " ")


def refused(crate, modules):
    """The numbers of the modules that rustc doesn't accept; a module that isn't Rust's syntax hides what is wrong with others, so the rest is asked again."""
    put(os.path.join(crate, "Cargo.toml"), CARGO.replace("real_serde", "packaged"))
    put(os.path.join(crate, ".cargo", "config.toml"), SOURCES)
    for number, text in modules.items():
        put(os.path.join(crate, "src", f"schema_{number}.rs"), text)
    put(os.path.join(crate, "src", "lib.rs"), "".join(f"pub mod schema_{number};\n" for number in modules))
    done = subprocess.run(["cargo", "check", "--offline", "--message-format=short"], cwd=crate, stdout=subprocess.PIPE, stderr=subprocess.PIPE)
    said = done.stderr.decode()
    bad = {int(it) for it in re.findall(r"src/schema_(\d+)\.rs:\d+:\d+: error", said)}
    if done.returncode and not bad:
        sys.exit(said)
    rest = {number: text for number, text in modules.items() if number not in bad}
    return bad | (refused(crate, rest) if bad and rest else set())


def main():
    words = argparse.ArgumentParser(description=__doc__.split("\n")[0])
    words.add_argument("program")
    words.add_argument("files", nargs="+")
    words.add_argument("--folder", help="the folder that tools/fetch_serde.sh made")
    words = words.parse_args()
    seen, rows, modules, counts = set(), [], {}, collections.Counter()
    for file in words.files:
        with open(file, "rb") as given:
            text = given.read()
        if text in seen:
            continue
        seen.add(text)
        schema, left = bundled(file)
        if schema is None:
            counts["not bundled"] += 1
            rows.append([os.path.basename(file), len(text), "not bundled: " + left.splitlines()[0].replace("|", "\\|")])
            continue
        page = subprocess.run([words.program, "explain", DEPTH], input=schema.encode(), stdout=subprocess.PIPE, stderr=subprocess.PIPE)
        kind, said = told(page.stdout.decode()) if page.stdout else (f"status {page.returncode}", page.stderr.decode().strip())
        counts[kind] += 1
        if left:
            said += f"; bundle left {len(left.splitlines())}"
        if kind == "compiles" and words.folder:
            done = subprocess.run([words.program, "rust", DEPTH], input=schema.encode(), stdout=subprocess.PIPE, stderr=subprocess.DEVNULL)
            if done.returncode == 0:
                modules[len(rows)] = done.stdout.decode()
            else:
                said += f"; rust: status {done.returncode}"
        rows.append([os.path.basename(file), len(text), said.replace("|", "\\|")])
    bad = refused(os.path.join(os.path.abspath(words.folder), "packaged"), modules) if modules else set()
    print("| file | bytes | |\n|---|---|---|")
    for number, (name, size, said) in enumerate(rows):
        print(f"| {name} | {size:,} | {said}{'; rustc refuses the module' if number in bad else ''} |")
    print(f"\n{len(rows)} files: " + ", ".join(f"{many} {kind}" for kind, many in counts.most_common()) + (f"; of {len(modules)} modules rustc accepts {len(modules) - len(bad)}" if modules else ""))
    sys.exit(1 if bad else 0)


if __name__ == "__main__":
    main()
