#!/usr/bin/env python3
"""Runs the commands of the worked examples (crates/worked_examples/FORMAT.md) by a program of its own process each, over real files and
streams, and compares standard output, standard error and the exit status byte for byte:

    scripts/pages.py                     the program of ./mapchain, which is proved and built first where it has to be
    scripts/pages.py path/to/mapchain    another program with the same commands
    scripts/pages.py --write             the same, and notes in scripts/commands.txt how many commands each page has

The gate does it with the program that it built, since the pages run there over files and streams in memory: what they leave out is the
program's `main`, with the file system and the standard streams. Commands on devices that fail are left out here. After each command its
folder has to hold the files that it held before, byte for byte, but for the file that the command was to write, and no other. It prints a
line for each command that went otherwise, and at its end how many pages and commands there were. The status is 0 where all went as they
say, and where of each page as many commands were run as scripts/commands.txt has for it: a page that isn't read, or not to its end, is
complained of.
"""
import argparse
import itertools
import re
import subprocess
import sys
import tempfile
from concurrent.futures import ProcessPoolExecutor
from functools import partial
from pathlib import Path

ROOT = Path(__file__).resolve().parent.parent
PAGES = ROOT / "crates" / "worked_examples" / "data"
COUNTS = ROOT / "scripts" / "commands.txt"


# What lines of a kind have in common, of which there may be many: how they end, or begin, without their indent.
ENDINGS = (": nothing of its geometry is left", " no geometry", " left out", ", which may not be degrees", ", as GeoJSON has the longitude first")
BEGINNING = "object "
# So many lines of a kind stand beside each other at most.
MOST_LINES = 10


def kind(line):
    """What a line tells of, where there may be many such lines."""
    for ending in ENDINGS:
        if line.endswith(ending):
            return ending
    return BEGINNING if line.startswith(BEGINNING) else None


def brief(lines):
    """The lines of an explanation as standard error has them: of those of a kind beside each other ten, and how many more."""
    told = []
    for this, run in itertools.groupby(lines, kind):
        run = list(run)
        told += run if this is None else run[:MOST_LINES]
        if this is not None and len(run) > MOST_LINES:
            told.append(f"and {len(run) - MOST_LINES} more")
    return told


class Command:
    """A command of a page, and what is wanted of it."""

    def __init__(self, line):
        words, _, kept = line.removeprefix("$ mapchain").partition(" > ")
        self.words, self.kept = words.split(" ")[1:], kept
        self.status, self.output, self.error = 0, b"", b""
        self.output_of = self.prefix_of = self.file = self.folder = None
        self.only_kept = self.on_devices = False

    def say(self, line):
        """Takes a line below the command."""
        if match := re.fullmatch(r"# status (\d+)", line):
            self.status = int(match[1])
        elif match := re.fullmatch(r"# output of (.+)", line):
            self.output_of = match[1]
        elif match := re.fullmatch(r"# to the file (.+)", line):
            self.file = match[1]
        elif line == "# output only kept":
            self.only_kept = True
        elif match := re.fullmatch(r"# for each proper prefix of (.+)", line):
            self.prefix_of = match[1]
        elif match := re.fullmatch(r"# for a folder (.+)", line):
            self.folder = match[1]
        elif line.startswith("# for "):
            self.on_devices |= line != "# for one byte a call"
        elif line.startswith("# "):
            raise ValueError(f"a line that isn't known: {line}")
        else:
            self.error += line.encode() + b"\n"


def bytes_of(kind, lines):
    """What a file of this kind holds."""
    if kind == "json":
        return "\n".join(lines).encode()
    if kind == "text":
        return "".join(f"{line}\n" for line in lines).encode()
    if kind == "bytes":
        return bytes.fromhex(" ".join(lines))
    if kind == "repeated":
        counts = (line.split(" ", 1) for line in lines)
        return "".join(text * int(count) for count, text in counts).encode()
    if kind == "squares":
        across, up = map(int, lines[0].split(" by "))
        squares = (
            '{"type":"Polygon","coordinates":[[[%d,%d],[%d,%d],[%d,%d],[%d,%d],[%d,%d]]]}'
            % (x, y, x + 1, y, x + 1, y + 1, x, y + 1, x, y)
            for y in range(up)
            for x in range(across)
        )
        return ('{"type":"GeometryCollection","geometries":[' + ",".join(squares) + "]}").encode()
    raise ValueError(f"a block that isn't known: {kind}")


def blocks_of(text):
    """The heads and the lines of the blocks of a page."""
    lines = iter(text.split("\n"))
    for line in lines:
        if line.startswith("```"):
            inside = []
            for each in lines:
                if each == "```":
                    break
                inside.append(each)
            yield line[3:], inside


def steps_of(text):
    """The files of a page and its commands, in order."""
    steps = []
    for head, lines in blocks_of(text):
        if match := re.fullmatch(r"(\w+) file (.+)", head):
            steps.append((match[2], bytes_of(match[1], lines)))
        elif match := re.fullmatch(r"(\w+) stdout", head):
            steps[-1].output = bytes_of(match[1], lines)
        elif head == "console":
            for line in lines:
                if line.startswith("$ "):
                    steps.append(Command(line))
                else:
                    steps[-1].say(line)
        else:
            raise ValueError(f"a block that isn't known: {head}")
    return steps


def run(program, words, folder):
    ended = subprocess.run([program, *words], cwd=folder, capture_output=True, timeout=120)
    return ended.returncode, ended.stdout, ended.stderr


def as_it_stands(program, step, folder):
    """Runs a command by its own words."""
    return run(program, step.words, folder)


def files_of(folder):
    """All files of a folder."""
    return {path.name: path.read_bytes() for path in folder.iterdir() if path.is_file()}


def run_step(program, step, wanted, folder, run_command):
    """What a command wrote to standard output, and in words what it did that its page doesn't say: nothing where all went as it says."""
    files = files_of(folder)
    status, output, error = run_command(program, step, folder)
    left = files_of(folder)
    if step.file and step.status == 0:
        files[step.file] = left.get(step.file) if step.only_kept else wanted
    streamed = b"" if step.file else output if step.only_kept else wanted
    if (status, output, error) == (step.status, streamed, step.error) and left == files:
        return output, ""
    others = sorted(name for name in left.keys() | files.keys() if left.get(name) != files.get(name))
    told = f"mapchain {' '.join(step.words)}: status {status}, {error.decode(errors='replace')!r}"
    return output, told + (f", files not as wanted: {' '.join(others)}" if others else "")


def run_page(program, page, folder, run_command=as_it_stands):
    """How many commands were run, each in this way, and how many went otherwise."""
    ran = otherwise = 0
    for step in steps_of(page.read_text()):
        if not isinstance(step, Command):
            (folder / step[0]).write_bytes(step[1])
            continue
        if step.on_devices:
            continue
        if step.folder:
            held = (folder / step.folder).read_bytes()
            (folder / step.folder).unlink()
            (folder / step.folder).mkdir()
        wanted = (folder / step.output_of).read_bytes() if step.output_of else step.output
        whole = (folder / step.prefix_of).read_bytes() if step.prefix_of else b""
        for length in range(len(whole)) if step.prefix_of else [None]:
            if length is not None:
                (folder / step.prefix_of).write_bytes(whole[:length])
            output, difference = run_step(program, step, wanted, folder, run_command)
            ran += 1
            if difference:
                otherwise += 1
                print(f"{page.name}: {difference}")
        if step.prefix_of:
            (folder / step.prefix_of).write_bytes(whole)
        if step.folder:
            (folder / step.folder).rmdir()
            (folder / step.folder).write_bytes(held)
        if step.kept:
            (folder / step.kept).write_bytes(output)
    return ran, otherwise


def path_of(file):
    """The path of a file from the top of the repository on."""
    return str(file.relative_to(ROOT))


def noted():
    """How many commands are to be run of each page and document, by its path."""
    lines = (line.split() for line in COUNTS.read_text().splitlines() if not line.startswith("#"))
    return {path: int(count) for path, count in lines}


def note(ran, is_own):
    """Notes how many commands were run of each, in place of what was noted of such paths."""
    comments = [line for line in COUNTS.read_text().splitlines() if line.startswith("#")]
    counts = {path: count for path, count in noted().items() if not is_own(path)} | ran
    COUNTS.write_text("".join(f"{line}\n" for line in [*comments, *(f"{path} {counts[path]}" for path in sorted(counts))]))


def missed(ran, is_own):
    """Prints of which such paths other numbers of commands were run than were noted, and gives how many they are."""
    wanted = {path: count for path, count in noted().items() if is_own(path)}
    wrong = [path for path in sorted(wanted.keys() | ran.keys()) if wanted.get(path, 0) != ran.get(path, 0)]
    for path in wrong:
        print(f"{path}: {ran.get(path, 0)} commands were run, and {path_of(COUNTS)} has {wanted.get(path, 0)} (--write notes what was run)")
    return len(wrong)


def is_page(path):
    """Whether this is the path of a page."""
    return path.startswith(path_of(PAGES))


def words_of(text):
    """The program's path, and whether the numbers of commands are to be noted."""
    parser = argparse.ArgumentParser(description=text)
    parser.add_argument("program", nargs="?", type=Path, help="the program, in place of that of ./mapchain")
    parser.add_argument("--write", action="store_true", help="note in scripts/commands.txt how many commands were run")
    words = parser.parse_args()
    return words.program.resolve() if words.program else program_path(), words.write


def program_path():
    """The program that ./mapchain runs."""
    run = subprocess.run([ROOT / "scripts" / "program-path.sh"], check=True, stdout=subprocess.PIPE, text=True)
    return Path(run.stdout.rstrip("\n"))


def try_page(program, page):
    """Runs the commands of a page in a folder of its own: how many were run, and how many went otherwise."""
    with tempfile.TemporaryDirectory() as folder:
        return run_page(program, page, Path(folder))


def main():
    program, writes = words_of("Runs the commands of the worked examples.")
    pages = sorted(PAGES.glob("*.md"))
    with ProcessPoolExecutor() as pool:
        counts = list(pool.map(partial(try_page, str(program)), pages))
    ran = {path_of(page): count[0] for page, count in zip(pages, counts)}
    otherwise = sum(count[1] for count in counts)
    print(f"{len(ran)} pages, {sum(ran.values())} commands by the program itself, {otherwise} went otherwise")
    if writes:
        note(ran, is_page)
    sys.exit(1 if missed(ran, is_page) or otherwise or not ran else 0)


if __name__ == "__main__":
    main()
