#!/usr/bin/env python3
"""Compares the table of crates in docs/ARCHITECTURE.md with what crates.txt and the crates say of themselves:

    scripts/crates.py            compares, and says which lines differ
    scripts/crates.py --write    writes the table again

A crate has a line, in the order of crates.txt, with the first sentence of its root file's first comment (`//!`). Where that is longer than a
line, it ends before its first colon. The table stands between `<!-- made: crates -->` and `<!-- end -->`. The status is 0 where it is as it
should be, and there are no more crates than a reader can keep apart.
"""
import re
import sys
from pathlib import Path

ROOT = Path(__file__).resolve().parent.parent
MAP = ROOT / "docs" / "ARCHITECTURE.md"
LONGEST = 200
MOST = 43
PLACE = re.compile(r"(<!-- made: crates -->\n\n).*?(\n\n<!-- end -->)", re.DOTALL)


def names():
    for line in (ROOT / "crates.txt").read_text().split("\n"):
        line = line.partition("#")[0].strip()
        if line:
            yield line.partition(":")[0].split()[0]


def comment(name):
    """The first comment of a crate's root file, in one line."""
    root = next(path for path in (ROOT / "crates" / name / "src" / file for file in ("lib.rt", "main.rt")) if path.exists())
    return " ".join(re.match(r"(?://!.*\n)*", root.read_text())[0].replace("//!", "").split())


def purpose(name):
    """The first sentence of the comment, or what it begins with, if that is long."""
    sentence = re.split(r"\.(?:\s+|$)(?=[A-Z`]|$)", comment(name))[0]
    return sentence.partition(": ")[0] if len(sentence) > LONGEST else sentence


def table():
    rows = [f"| `{name}` | {purpose(name)} |" for name in names()]
    return "\n".join(["| Crate | What it is for |", "|---|---|", *rows])


def main():
    text = MAP.read_text()
    found = PLACE.search(text)
    if not found:
        sys.exit("crates: docs/ARCHITECTURE.md has no place for the table")
    wanted = table()
    stands = text[found.end(1) : found.start(2)]
    if "--write" in sys.argv[1:]:
        MAP.write_text(text[: found.end(1)] + wanted + text[found.start(2) :])
        return
    for line in wanted.split("\n"):
        if line not in stands.split("\n"):
            print(f"crates: docs/ARCHITECTURE.md should have: {line}")
    crates = len(list(names()))
    print(f"{crates} crates, {'each with its line' if stands == wanted else 'but not as docs/ARCHITECTURE.md has them'}")
    if crates > MOST:
        print(f"crates: {MOST} at most: a new one takes the place of another")
    sys.exit(0 if stands == wanted and crates <= MOST else 1)


if __name__ == "__main__":
    main()
