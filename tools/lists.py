#!/usr/bin/env python3
"""lists.py [--write]: says where crates.txt lists a library that no text of the crate names, or lacks one that a text names.

A text is a file of src/, specs/ or proofs/, or an edit of must-fail/. A library that is listed and not named costs the gate: rt sums up what a crate
stands on once for each way down the lists. With --write the names that aren't needed are taken out. The status is 1 where the lists differ.
"""
import os
import re
import sys

TOP = os.path.dirname(os.path.dirname(os.path.abspath(__file__)))
ENDS = {"src": ".rt", "specs": ".antt", "proofs": ".antt", "must-fail": ".edit"}


def texts_of(crate):
    for part, end in ENDS.items():
        for at, _, names in os.walk(f"{TOP}/crates/{crate}/{part}"):
            for name in names:
                if name.endswith(end):
                    with open(f"{at}/{name}", encoding="utf-8") as file:
                        yield name, file.read()


def named_in(crate):
    """The words that stand where the name of a library may stand."""
    found = set()
    for name, text in texts_of(crate):
        found |= set(re.findall(r"\bRattle\.(\w+)", text))
        if not name.endswith(".antt"):
            code = "\n".join(line for line in text.split("\n") if not line.strip().startswith("//"))
            code = re.sub(r"""'\\?"'|"(?:\\.|[^"\\])*\"""", "", code, flags=re.S)
            found |= set(re.findall(r"(?<![\w:])(\w+)::", code))
    return found


def main():
    with open(f"{TOP}/crates.txt", encoding="utf-8") as file:
        lines = file.read().split("\n")
    rows = {line: line.replace(":", "").split() for line in lines if ":" in line and not line.startswith("#")}
    libraries = {name for row in rows.values() for name in row}
    kept, differs = [], False
    for line in lines:
        if line not in rows:
            kept.append(line)
            continue
        crate, *listed = rows[line]
        named = named_in(crate) & libraries - {crate}
        for word, found in (("spare", set(listed) - named), ("lacking", named - set(listed))):
            if found:
                differs = True
                print(f"{crate}: {word} {' '.join(sorted(found))}")
        kept.append(" ".join([f"{crate}:", *(it for it in listed if it in named)]))
    if "--write" in sys.argv[1:]:
        with open(f"{TOP}/crates.txt", "w", encoding="utf-8") as file:
            file.write("\n".join(kept))
    return 1 if differs else 0


if __name__ == "__main__":
    sys.exit(main())
