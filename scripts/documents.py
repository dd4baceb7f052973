#!/usr/bin/env python3
"""Runs the commands of README.md and of docs/FAULTS.md as they stand there, and compares what they write and their statuses:

    scripts/documents.py                     the program of ./mapchain, which is proved and built first where it has to be
    scripts/documents.py path/to/mapchain    another program with the same commands
    scripts/documents.py --write             the same, and notes in scripts/commands.txt how many commands each document has

Each document is read from front to end, in a folder of its own that is empty at first; that of the README has `mapchain`, `examples` and
`scripts` in it, as a clone has. A block `KIND file NAME` is a file, as in the pages of the worked examples
(crates/worked_examples/FORMAT.md); one of a kind that isn't known there, as `python`, is text. A block `console` has commands for the
shell, each after `$ `; below each stand `# status N`, where its status isn't 0, and what it writes: standard output, and then standard
error. Where a status isn't 0, standard output has to stay empty. A block without a head is neither. A command stands in a `console`, or it
is complained of. A picture that the README shows, as docs/areas.svg, has to be what its commands leave in a file of that name.

An entry of docs/FAULTS.md is a heading of the third level, and names a fault line of docs/FORMATS.md, without its `error:` and its
numbers. Each fault line has one entry, each entry a fault line, and some command of the entry ends with it; but for the line of which
docs/FORMATS.md says that it was not seen so far. The status is 0 where all of this is so, and where of each document as many commands were run
as scripts/commands.txt has for it, and README.md says how many commands that has in all.
"""
import os
import re
import subprocess
import sys
import tempfile
from pathlib import Path

sys.dont_write_bytecode = True

from pages import ROOT, bytes_of, missed, note, noted, path_of, words_of

README = ROOT / "README.md"
FAULTS = ROOT / "docs" / "FAULTS.md"
FORMATS = ROOT / "docs" / "FORMATS.md"
UNSEEN = "not seen so far"
KINDS = ["json", "text", "bytes", "repeated"]


def key(line):
    """What names a fault in its line: no `error:`, no layer, no place, no feature, no count."""
    line = re.sub(r"^error: (layer (\d+|I) )?", "", line)
    return re.sub(r"( at (\d+|N)| feature (\d+|J)| sent (\d+|N))$", "", line)


def known_faults():
    """The names of the faults that docs/FORMATS.md lists, each with whether it was ever seen."""
    known = {}
    for line in FORMATS.read_text().split("\n"):
        if match := re.fullmatch(r"\| ([GP]\d+) \| (\w+) \| .*", line):
            known[f"{match[1]} {match[2]}"] = True
        elif line.startswith("| (usage text) |"):
            known["usage text"] = True
        elif line.startswith("| `error: "):
            for text in re.findall(r"`(error: [^`]+)`", line):
                if ".." not in text:
                    known[key(text)] = UNSEEN not in line
    return known


class Document:
    """The commands of a document, tried one after another in one folder."""

    def __init__(self, path, folder, environment):
        self.name, self.text = path.name, path.read_text()
        self.folder, self.environment = folder, environment
        self.entry = None
        self.shown = {}
        self.ran = self.otherwise = 0

    def complain(self, text):
        self.otherwise += 1
        print(f"{self.name}: {self.entry}: {text}" if self.entry else f"{self.name}: {text}")

    def enter(self, heading):
        self.entry = heading
        if heading in self.shown:
            self.complain("it stands twice")
        self.shown[heading] = False

    def block(self, head, lines):
        if match := re.fullmatch(r"(\w+) file (\S+)", head):
            kind = match[1] if match[1] in KINDS else "text"
            (self.folder / match[2]).write_bytes(bytes_of(kind, lines))
        elif head == "console":
            for command, wanted in commands_of(lines):
                self.run(command, wanted)
        elif head:
            self.complain(f"a block that isn't known: {head}")

    def run(self, command, wanted):
        ended = subprocess.run(
            ["sh", "-c", command], cwd=self.folder, env=self.environment, stdin=subprocess.DEVNULL, capture_output=True, timeout=300
        )
        output, error = (stream.decode(errors="replace") for stream in (ended.stdout, ended.stderr))
        came = (output + error).rstrip("\n").split("\n") if output + error else []
        if ended.returncode:
            came = [f"# status {ended.returncode}", *came]
        self.ran += 1
        if came != wanted or (ended.returncode and output):
            self.complain("\n".join([f"$ {command}", *came]))
        if ended.returncode and self.entry and self.entry in [key(line) for line in came if line.startswith("error: ")]:
            self.shown[self.entry] = True
        if self.entry == "usage text" and ended.returncode == 2 and any(line.startswith("Usage: ") for line in came):
            self.shown[self.entry] = True

    def read(self):
        lines = iter(self.text.split("\n"))
        for line in lines:
            if line.startswith("### "):
                self.enter(line[4:])
            elif line.startswith("## "):
                self.entry = None
            elif line.startswith("```"):
                inside = list(until_end(lines))
                self.block(line[3:], inside)
            elif line.lstrip().startswith("$ "):
                self.complain(f"a command that isn't run: {line.strip()}")

    def compare_faults(self, known):
        for name in self.shown:
            self.entry = name
            if name not in known:
                self.complain("docs/FORMATS.md has no such fault")
            elif known[name] and not self.shown[name]:
                self.complain("no command ends with it")
        for name in known:
            if name not in self.shown:
                self.entry = name
                self.complain("it has no entry")

    def compare_pictures(self):
        for name in sorted(set(re.findall(r"docs/([\w-]+\.svg)", self.text))):
            made = self.folder / name
            if not made.exists() or made.read_bytes() != (ROOT / "docs" / name).read_bytes():
                self.complain(f"docs/{name} isn't what its commands draw")


def until_end(lines):
    """The lines of a block."""
    for line in lines:
        if line == "```":
            return
        yield line
    raise SystemExit("documents: a block without an end")


def commands_of(lines):
    """The commands of a console, each with the lines below it."""
    found = []
    for line in lines:
        if line.startswith("$ "):
            found.append((line[2:], []))
        else:
            found[-1][1].append(line)
    return found


def document(path, program, room):
    """A document whose commands are to run in a folder of its own, with `mapchain` on the path."""
    names, folder = room / "names", room / path.stem
    names.mkdir(exist_ok=True)
    folder.mkdir()
    if not (names / "mapchain").exists():
        (names / "mapchain").symlink_to(program)
    environment = {**os.environ, "PATH": f"{names}:{os.environ['PATH']}", "LC_ALL": "C.UTF-8", "PYTHONDONTWRITEBYTECODE": "1"}
    return Document(path, folder, environment)


def try_readme(program, room):
    readme = document(README, program, room)
    (readme.folder / "mapchain").symlink_to(program)
    for name in ["examples", "scripts"]:
        (readme.folder / name).symlink_to(ROOT / name)
    readme.read()
    readme.entry = None
    readme.compare_pictures()
    print(f"README.md: {readme.ran} commands as they stand there, {readme.otherwise} complaints")
    return readme


def try_faults(program, room):
    faults = document(FAULTS, program, room)
    faults.read()
    faults.compare_faults(known_faults())
    print(f"FAULTS.md: {len(faults.shown)} faults explained, {faults.ran} commands as they stand there, {faults.otherwise} complaints")
    return faults


def is_counted():
    """Whether README.md says how many commands scripts/commands.txt has, of all documents and worked examples."""
    said = f"{sum(noted().values()):,} commands"
    if said in README.read_text():
        return True
    print(f"README.md: it doesn't say '{said}', as scripts/commands.txt has them")
    return False


def is_document(path):
    """Whether this is the path of a document."""
    return path in map(path_of, (README, FAULTS))


def main():
    program, writes = words_of("Runs the commands of README.md and of docs/FAULTS.md.")
    with tempfile.TemporaryDirectory() as room:
        tried = [way(program, Path(room)) for way in (try_readme, try_faults)]
    ran = {path_of(path): each.ran for path, each in zip((README, FAULTS), tried)}
    if writes:
        note(ran, is_document)
    is_right = is_counted()
    sys.exit(1 if missed(ran, is_document) or not is_right or any(each.otherwise or not each.ran for each in tried) else 0)


if __name__ == "__main__":
    main()
