#!/usr/bin/env python3
"""Asks the real reader of serde's attributes what it tells of items, and compares that with the table of cases.

    tools/real_reader.py --folder FOLDER [--write]

tools/README.md says what it needs and what it shows.
"""

import argparse
import collections
import os
import random
import re
import subprocess
import sys

from real_serde import DEFAULT, put

TOOLS = os.path.dirname(os.path.abspath(__file__))
TABLE = os.path.join(os.path.dirname(TOOLS), "crates", "container_cases")

SECTION = "## containers by the real reader"
ROWS = 400
PLAIN = 20
SEED = 46
TRIED = 30000

# The release that is ported.
READER = "serde_derive_internals-0.30.0"

# What syn says of a syntax error, and what the port calls it.
SYNTAX = [
    (r"expected attribute arguments in parentheses: .*", "ExpectedArguments"),
    (r"(unexpected end of input, )?expected (nested attribute|ident)", "ExpectedPath"),
    (r"unexpected (literal|token) in nested attribute, expected ident", "ExpectedPath"),
    (r"(unexpected end of input, )?expected `=` or parentheses", "ExpectedEqOrParen"),
    (r"(unexpected end of input, )?expected `,`", "ExpectedComma"),
    (r"(unexpected end of input, )?expected `=`", "ExpectedEq"),
    (r"(unexpected end of input, )?expected parentheses", "ExpectedParen"),
    (r"(unexpected end of input, )?expected an expression", "ExpectedValue"),
    (r"expected `:`", "UnexpectedToken"),
    (r"expected one of: `for`, .*", "ExpectedType"),
]


# ---- the real reader

CARGO = """[package]
name = "real_reader"
version = "0.0.0"
edition = "2021"

[[bin]]
name = "real_reader"
path = "real_reader.rs"

[dependencies]
serde_derive_internals = "=0.30.0"
syn = { version = "3", default-features = false, features = ["clone-impls", "derive", "parsing", "printing"] }
proc-macro2 = { version = "1", default-features = false, features = ["span-locations"] }

[profile.dev]
debug = false
incremental = false

[workspace]
"""

SOURCES = f"""[source.{DEFAULT}]
replace-with = "unpacked"

[source.unpacked]
directory = "../registry"
"""


def built(folder, jobs):
    """The program that asks the real reader, built of the sources in the folder."""
    crate = os.path.join(folder, "reader")
    put(os.path.join(crate, "Cargo.toml"), CARGO)
    put(os.path.join(crate, ".cargo", "config.toml"), SOURCES)
    with open(os.path.join(TOOLS, "real_reader.rs"), encoding="utf-8") as fixed:
        put(os.path.join(crate, "real_reader.rs"), fixed.read())
    done = subprocess.run(["cargo", "build", "--offline", "--quiet", f"--jobs={jobs}"], cwd=crate)
    if done.returncode != 0:
        sys.exit("real_reader.rs doesn't build of these sources")
    return os.path.join(crate, "target", "debug", "real_reader")


class Answer:
    """What the real reader tells of an item: the texts in order, and the table's line."""

    def __init__(self, line):
        parts = line.split("\t")
        self.is_one = line not in ("no item", "unfit")
        told = [part.split("\x1f") for part in parts[:-1]]
        self.texts = [text for _, text in told]
        shown = [f"{named(text)} @{place}" for place, text in told]
        self.line = f"{'; '.join(shown) or 'ok'} | {parts[-1]}"
        # a syntax error that the port has no name for, or a place that is no token's, makes no row
        self.is_row = self.is_one and all(map(named, self.texts)) and not any("?" in place for place, _ in told)


def named(text):
    """A text as the port tells it, or None."""
    for pattern, name in SYNTAX:
        if re.fullmatch(pattern, text):
            return name
    return None if re.match(r"(un)?expected (?!serde|suffix)", text) else text


def asked(program, lines):
    done = subprocess.run([program], input="".join(line + "\n" for line in lines).encode(), stdout=subprocess.PIPE, check=True)
    return [Answer(line) for line in done.stdout.decode().split("\n")[:-1]]


def kinds(folder):
    """The forms of the texts that the reader's sources hold: their literals of three words and more, with room for what is put in."""
    found = []
    for name in ("ast", "attr", "case", "check"):
        with open(os.path.join(folder, "registry", READER, "src", f"{name}.rs"), encoding="utf-8") as file:
            text = re.sub(r"//.*", "", file.read()).split("#[cfg(test)]")[0]
        for literal in re.findall(r'"((?:[^"\\]|\\.)*)"', text):
            if len(literal.split()) > 2 and not literal.startswith("`,"):
                form = re.escape(literal.replace('\\"', '"'))
                found.append(re.sub(r"\\\{0?(:\\\?)?\\\}", ".*", form) + (".*" if name == "case" else ""))
    return sorted(set(found))


# ---- items

NAMES = ["x", "y", "some name", "", "q-q"]
RULES = ["lowercase", "UPPERCASE", "PascalCase", "camelCase", "snake_case", "SCREAMING_SNAKE_CASE", "kebab-case", "SCREAMING-KEBAB-CASE"]
BAD_RULES = ["lower", "Lowercase", "snake-case", ""]
TAGS = ["t", "k", "a", "0"]
TYPES = ["u8", "Vec<u8>", "[u8; 3]", "(u8, u16)", "&'a str", "a::B", "*const u8", "fn(u8) -> u8", "dyn A + 'a",
         "impl A", "m!(x)", "_", "!", "(u8)", "()", "&&u8", "&'a mut u8", "B<3>", "B<{3}>", "B<-1>", "B<N: A>", "B<'a, T, N = u8>",
         "[u8; 1 + 2]", "[u8; f()]", "<T as A>::B", "Self::A", "r#fn", "union", "a::<u8>::b"]
BAD_TYPES = ["", "u8 u8", "Vec<", "5", "Vec<u8>>", "[u8", "*u8", "typeof", "<T as A>", "a::b::", "fn", "'a", "B<,>", "(,)",
             "dyn", "dyn + A", "fn(mut x: u8)"]
PATHS = ["a::B", "B<T>", "::a::B", "Self", "B", "a::<T>", "crate::a", "r#fn", "f::<3>", "f::<T = u8>", "f::<_>", "union"]
BAD_PATHS = ["", "a b", "5", "a::", "a-b", "fn", "a::_", "a!()", "'a", "<T>::f", "f < g", "&f", "(f)"]
CALLS = ["f", "a::f", "::a::f", "<T as A>::f", "Vec::<T>::f", "<T>::f", "crate::a", "super::super::f", "Self::f", "r#fn",
         "f::<'a>", "f::<>", "<T as A<u8>>::f::<u8>"]
BAD_CALLS = ["", "f g", "a::", "5", "fn", "_", "a!()", "'a", "&f", "(f)", "<T as A>", "f < g"]
BOUNDS = ["", "T: A", "T: A + B", "T: A, Vec<T>: B", "'a: 'b", "T: 'a,", "T:", "'a:", "T: 'a + A", "T: A +"]
BAD_BOUNDS = ["T", "T = A", ",", "5", "T: A B", "T: A,, U: B"]
LIFETIMES = ["'a", "'b", "'a + 'b", "'a + 'a", "'c", "", "'static", "'_"]
BAD_LIFETIMES = ["a", "'a +  + 'b", "'a 'b", "+", "'a, 'b"]

# What each attribute with a text takes, and what it doesn't.
TEXTS = {
    "rename": (NAMES, []), "alias": (NAMES, []), "expecting": (NAMES, []), "tag": (TAGS, []), "content": (["c", "t", "k"], []),
    "rename_all": (RULES, BAD_RULES), "rename_all_fields": (RULES, BAD_RULES),
    "from": (TYPES, BAD_TYPES), "try_from": (TYPES, BAD_TYPES), "into": (TYPES, BAD_TYPES),
    "remote": (PATHS, BAD_PATHS), "crate": (["a", "a::b"], BAD_PATHS), "bound": (BOUNDS, BAD_BOUNDS), "borrow": (LIFETIMES, BAD_LIFETIMES),
    **{name: (CALLS, BAD_CALLS) for name in ("default", "with", "serialize_with", "deserialize_with", "skip_serializing_if", "getter")},
}
FLAGS = ["transparent", "deny_unknown_fields", "default", "untagged", "field_identifier", "variant_identifier", "skip", "skip_serializing",
         "skip_deserializing", "other", "borrow", "flatten"]
HALVES = ["rename", "rename_all", "rename_all_fields", "bound"]

# Where a text is read further, syn tells a suffix in other ways than the port does.
READ_FURTHER = {name for name, (_, bad) in TEXTS.items() if bad} - {"rename_all", "rename_all_fields"}

# What stands at a container, a variant and a field.
PLACES = {
    "container": ["rename", "rename_all", "rename_all_fields", "transparent", "deny_unknown_fields", "default", "bound", "untagged", "tag",
                  "content", "from", "try_from", "into", "remote", "field_identifier", "variant_identifier", "crate", "expecting"],
    "variant": ["rename", "alias", "rename_all", "skip", "skip_serializing", "skip_deserializing", "other", "bound", "with",
                "serialize_with", "deserialize_with", "borrow", "untagged"],
    "field": ["rename", "alias", "default", "skip", "skip_serializing", "skip_deserializing", "skip_serializing_if", "serialize_with",
              "deserialize_with", "with", "bound", "borrow", "getter", "flatten"],
}
# No attributes of serde's, and metas that aren't written right.
STRANGE = ["what", "a::b", "serialize", "skip_all", "what(1)", "fn", "r#x", "crate::x", "_"]
WRONG = ["5", "\"x\"", "rename x", "default = ", "untagged untagged", "skip: x", "tag(\"t\")", "rename(x)", "bound(\"T: A\")", "rename", "tag",
         "rename(,)", "rename[x]", "(rename)", "rename.x", "untagged = 5", "untagged(x)", "a::", "alias : \"x\"", "rename(serialize)",
         "rename(serialize = )"]


class Maker:
    """Items by chance, of a seed."""

    def __init__(self, seed):
        self.chance = random.Random(seed)

    def one(self, *choices):
        return self.chance.choice(choices)

    def is_so(self, share):
        return self.chance.random() < share

    def value(self, name):
        """What follows `=`."""
        good, bad = TEXTS.get(name, (NAMES, []))
        text = self.chance.choice(bad if bad and self.is_so(0.15) else good)
        if self.is_so(0.08):
            return self.one("5", "true", "x", "a::b", "(\"x\")", "-1", "f()", "\"x\" + \"y\"", "a.b", "&\"x\"")
        return f'"{text}"' + ("s" if name not in READ_FURTHER and self.is_so(0.05) else "")

    def meta(self, place):
        """One meta of that place, or of another."""
        if self.is_so(0.05):
            return self.chance.choice(STRANGE)
        if self.is_so(0.03):
            return self.chance.choice(WRONG)
        name = self.chance.choice(PLACES[place if self.is_so(0.94) else self.one("container", "variant", "field")])
        if name in HALVES and self.is_so(0.3):
            halves = [f"{self.one('serialize', 'deserialize')} = {self.value(name)}" for _ in range(self.one(1, 2, 2))]
            if self.is_so(0.12):
                halves.append(self.one("serialise = \"x\"", "both = \"x\"", "serialize", "5"))
            return f"{name}({', '.join(halves)})"
        if name in FLAGS and (name not in TEXTS or self.is_so(0.6)):
            return name + (" = \"x\"" if self.is_so(0.03) else "")
        return f"{name} = {self.value(name)}"

    def front(self, place, share):
        """The attributes in front of something."""
        text = ""
        while self.is_so(share):
            share *= 0.4
            metas = [self.meta(place) for _ in range(self.one(1, 1, 1, 2, 2, 3))]
            if self.is_so(0.08):
                metas.append(metas[0])
            text += f"#[serde({', '.join(metas)})] "
        if self.is_so(0.01):
            text += self.one("#[serde] ", "#[serde()] ", "#[doc] ")
        return text

    def type_of(self):
        return self.one("u8", "u8", "u8", "u16", "T", "Vec<u8>", "&'a str", "Vec<&'a str>", "&'b [u8]", "PhantomData<T>", "B<'a>", "[u8; 3]")

    def fields(self, named, count, share):
        parts = []
        for name in "abcd"[:count]:
            label = ("t" if name == "a" and self.is_so(0.1) else name) + ": " if named else ""
            parts.append(f"{self.front('field', share)}{label}{self.type_of()}")
        return f" {{ {', '.join(parts)} }}" if named else f"({', '.join(parts)})"

    def variant(self, name, share):
        body = self.one("", "", "named", "one", "one", "more", "none")
        if body in ("named", "more"):
            text = self.fields(body == "named", self.one(1, 2, 2), share)
        else:
            text = {"": "", "one": self.fields(False, 1, share), "none": self.one("()", " { }")}[body]
        return f"{self.front('variant', share)}{name}{text}"

    def item(self):
        where = self.one("container", "variant", "field", "all")
        share = {place: 0.75 if where in (place, "all") else 0.12 for place in PLACES}
        kind = self.one("struct", "struct", "tuple", "newtype", "unit", "enum", "enum", "enum", "enum", "union")
        front, params = self.front("container", share["container"]), self.one("", "", "", "<T>", "<'a>")
        if kind == "enum":
            variants = [self.variant(name, max(share["variant"], share["field"]) * 0.6) for name in "ABCD"[:self.one(1, 2, 2, 3)]]
            return f"{front}enum E{params} {{ {', '.join(variants)} }}"
        if kind == "unit":
            return f"{front}struct S;"
        if kind == "union":
            return f"{front}union U{self.fields(True, 1, share['field'])}"
        count = 1 if kind == "newtype" else self.one(1, 2, 2, 3) if kind == "struct" else self.one(2, 2, 3)
        return f"{front}struct S{params}{self.fields(kind == 'struct', count, share['field'])}{'' if kind == 'struct' else ';'}"

    def line(self):
        return f"{self.one('ser', 'de')} {self.one('marks', 'marks', 'zed')} | {self.item()}"


# ---- the rows

def told_kinds(answer, forms):
    """The forms of the texts, and the names of syntax errors."""
    return {next((form for form in forms if re.fullmatch(form, text)), named(text)) for text in answer.texts}


def made(program, forms, held):
    """Rows of items that no other row has, each with another list of texts than those before it, and some that nothing is told of."""
    maker = Maker(SEED)
    lines = list(dict.fromkeys(maker.line() for _ in range(TRIED)))
    lines = [line for line in lines if line.split(" | ", 1)[1] not in held]
    pairs = sorted(((line, answer) for line, answer in zip(lines, asked(program, lines)) if answer.is_row), key=lambda pair: len(pair[0]))
    counts, seen, items, rows = collections.Counter(), set(), set(), []

    def take(line, answer):
        rows.append((line, answer))
        counts.update(told_kinds(answer, forms))
        seen.add(tuple(answer.texts))
        items.add(line.split(" | ", 1)[1])

    # each kind three times at least, the rarest first; then by the number of kinds, up to three
    common = collections.Counter(kind for _, answer in pairs for kind in told_kinds(answer, forms))
    for kind in sorted(common, key=lambda kind: (common[kind], str(kind))):
        for line, answer in pairs:
            if counts[kind] >= 3:
                break
            if kind in told_kinds(answer, forms) and tuple(answer.texts) not in seen and line.split(" | ", 1)[1] not in items:
                take(line, answer)
    for most in range(5):
        limit = (PLAIN, (ROWS - len(rows)) // 2, (ROWS - len(rows)) // 2, ROWS, ROWS)[most]
        left = [pair for pair in pairs if len(told_kinds(pair[1], forms)) == most and (most > 0 or pair[0].count("serde") > 1)]
        maker.chance.shuffle(left)
        for line, answer in left:
            is_new = most == 0 or tuple(answer.texts) not in seen
            if len(rows) < ROWS and limit > 0 and is_new and line.split(" | ", 1)[1] not in items:
                take(line, answer)
                limit -= 1
    # what syn doesn't support without its feature `full` the port tells otherwise (docs/DECISIONS.md)
    alike = [row for row in rows if not any(text.startswith("unsupported expression") for text in row[1].texts)]
    return sorted(alike, key=lambda row: (len(row[1].texts), len(row[0]), row[0]))


def read(name):
    with open(os.path.join(TABLE, name), encoding="utf-8") as file:
        return file.read().split("\n")[:-1]


def sections(lines):
    """The lines before the section, in it, and behind it."""
    if SECTION not in lines:
        return lines, [], []
    first = lines.index(SECTION) + 1
    last = next((place for place in range(first, len(lines)) if lines[place].startswith("## ")), len(lines))
    return lines[:first - 1], lines[first:last], lines[last:]


def main():
    parser = argparse.ArgumentParser(description=__doc__.splitlines()[0])
    parser.add_argument("--folder", required=True, help="the folder that tools/fetch_serde.sh filled")
    parser.add_argument("--jobs", type=int, default=os.cpu_count(), help="how many compilers cargo may run at once")
    parser.add_argument("--write", action="store_true", help="make the rows anew")
    parser.add_argument("--ask", action="store_true", help="print what the real reader tells of the rows of standard input")
    words = parser.parse_args()
    folder = os.path.abspath(words.folder)
    if not os.path.isdir(os.path.join(folder, "registry", READER)):
        sys.exit(f"the folder has no {READER}")
    program = built(folder, words.jobs)
    if words.ask:
        for answer in asked(program, sys.stdin.read().split("\n")[:-1]):
            print(answer.line, *(text for text in answer.texts if named(text) != text), sep="\t")
        return 0

    forms = kinds(folder)
    (before, rows, behind), (wanted_before, wanted, wanted_behind) = sections(read("stdin")), sections(read("stdout"))
    if words.write:
        held = {line.split(" | ", 1)[-1] for line in before + behind}
        pairs = made(program, forms, held)
        rows, wanted = [line for line, _ in pairs], [answer.line for _, answer in pairs]
        for name, parts in (("stdin", (before, rows, behind)), ("stdout", (wanted_before, wanted, wanted_behind))):
            with open(os.path.join(TABLE, name), "w", encoding="utf-8") as file:
                file.write("".join(line + "\n" for line in [*parts[0], SECTION, *parts[1], *parts[2]]))

    answers = asked(program, rows)
    faults = [f"{line}\n  the table  {other}\n  the reader {answer.line}"
              for line, other, answer in zip(rows, wanted, answers) if other != answer.line]
    counts = collections.Counter(kind for answer in answers for kind in told_kinds(answer, forms))
    print(f"{len(rows)} items, {sum(not answer.texts for answer in answers)} of them without a diagnostic; "
          f"{sum(len(answer.texts) for answer in answers)} diagnostics of {len(counts)} kinds")
    faults += [f"told {counts[form]} times: {form}" for form in forms if counts[form] < 2]
    if len(set(rows)) < len(rows) or len(rows) != len(wanted):
        faults.append("the table's section is not whole, or has an item twice")
    for fault in faults:
        print(f"difference: {fault}")
    return 1 if faults else 0


if __name__ == "__main__":
    sys.exit(main())
