#!/usr/bin/env python3
"""Runs commands twenty-one times each, and shows that all runs of a command write the same bytes, whatever number the system gives a run:

    scripts/same-bytes.py                     the program of ./mapchain, which is proved and built first where it has to be
    scripts/same-bytes.py path/to/mapchain    another program with the same commands

The tables in which `build` finds positions and arcs begin their hashes with a number of the run, for which it asks the system (`getentropy`), so
that each run lays its tables out in another way. Nothing that is written may depend on it. A library that the program is made to load gives
most runs a number that stands here, one of them none, and notes that it was asked; the other runs get one of the system's. It takes a C compiler, as
scripts/refused-memory.py does.

The files are a mesh of 2,025 areas with 4,136 arcs (scripts/mesh.py), the same as two layers, of which each border within has an area of either
at its sides, and its topology. Compared are the status, standard output, standard error, and the files of `-o` and `--report`. That they are
right is shown elsewhere, as by the worked examples.

It prints how many runs there were. The status is 0 where those of each command wrote the same bytes, no fewer than stand here, each `build` asked
for its number, and as many runs were compared as stand here. It takes some seconds, and a few MB of disk. The gate runs it.
"""
import os
import subprocess
import sys
import tempfile

sys.dont_write_bytecode = True

from preloaded import compiled

ROOT = os.path.dirname(os.path.dirname(os.path.realpath(__file__)))
PROGRAM_PATH = [f"{ROOT}/scripts/program-path.sh"]

# What gives a run its number, and notes that it did in a file.
GIVING = r"""
#include <errno.h>
#include <stddef.h>
#include <stdlib.h>
#include <string.h>
#include <unistd.h>

int getentropy(void *room, size_t size) {
    const char *given = getenv("GIVEN_NUMBER");
    if (write(atoi(getenv("GIVEN_TOLD")), ".", 1) != 1) return -1;
    if (strcmp(given, "refused") == 0) {
        errno = ENOSYS;
        return -1;
    }
    unsigned long long number = strtoull(given, NULL, 10);
    for (size_t i = 0; i < size; i++) ((unsigned char *)room)[i] = number >> i % 8 * 8;
    return 0;
}
"""

# The numbers that are given to the runs of a command, to one that the system has none, and with none here one of the system's; how many runs are compared in all; and the cells of
# the mesh in a row with the segments of their sides.
NUMBERS = (*range(5), *(10**17 * it + it for it in range(1, 9)), (1 << 63) - 1, (1 << 64) - 1, "refused", *(None,) * 5)
RUNS = 231
CELLS, SEGMENTS = 45, 4
OUTPUT, REPORT = "output", "run.json"

# The commands, and how many bytes each writes at least. The first one's output is the file of the last three.
COMMANDS = (
    ("build mesh=mesh.json", 500_000),
    ("build even=even.json odd=odd.json", 500_000),
    ("build --grid 100000 mesh=mesh.json", 200_000),
    ("build --min-area 0.5 mesh=mesh.json", 300_000),
    ("build --keep 1/3 even=even.json odd=odd.json", 300_000),
    ("build --min-ring-area 27 mesh=mesh.json", 200_000),
    (f"build -o {OUTPUT} odd=odd.json even=even.json", 500_000),
    (f"build --explain --report {REPORT} even=even.json odd=odd.json", 500_000),
    ("simplify --min-area 0.5 mesh.topojson", 300_000),
    ("geo --object mesh mesh.topojson", 900_000),
    ("stat mesh.topojson", 50),
)


def write_files():
    """Writes the mesh, and its areas of even and of odd numbers. Rows have an odd number of areas, so neighbours are in different ones."""
    words = [sys.executable, f"{ROOT}/scripts/mesh.py", str(CELLS), str(SEGMENTS)]
    mesh = subprocess.run(words, stdout=subprocess.PIPE, check=True, text=True).stdout
    first, *areas, last = mesh.splitlines()
    areas = [area.rstrip(",") for area in areas]
    for name, some in (("mesh.json", areas), ("even.json", areas[::2]), ("odd.json", areas[1::2])):
        with open(name, "w") as file:
            file.write("\n".join([first, ",\n".join(some), last]))


def taken(name):
    """The bytes of a file, which is taken away, if it is there."""
    if not os.path.exists(name):
        return None
    with open(name, "rb") as file:
        what = file.read()
    os.remove(name)
    return what


class Outcome:
    """What a run of the program writes, and whether it asked for the number that it was to be given."""

    def __init__(self, program, words, number, library):
        with open("told", "wb") as told:
            given = {"LD_PRELOAD": library, "GIVEN_NUMBER": str(number), "GIVEN_TOLD": str(told.fileno())} if number is not None else {}
            run = subprocess.run([program, *words.split()], capture_output=True, env=given, pass_fds=[told.fileno()], timeout=120)
        output = taken(OUTPUT)
        self.status = run.returncode
        self.written = run.returncode, run.stdout, run.stderr, output, taken(REPORT)
        self.output = run.stdout if output is None else output
        self.asked = bool(taken("told"))


def what_differs(words, outcomes, least):
    """In words what is wrong with the outcomes of a command: nothing where they are as they should be."""
    first = outcomes[0]
    if (kinds := len({it.written for it in outcomes})) != 1:
        return f"its runs wrote {kinds} different things"
    if first.status != 0 or len(first.output) < least:
        return f"its runs have status {first.status} and write {len(first.output)} bytes, not {least} or more"
    asked, wanted = (sum(it.asked for it in outcomes), sum(it is not None for it in NUMBERS))
    if words.startswith("build") and asked != wanted:
        return f"{asked} of its runs asked for their number, and {wanted} were to be given one"
    return ""


def main():
    program = os.path.abspath(sys.argv[1]) if len(sys.argv) > 1 else subprocess.check_output(PROGRAM_PATH, text=True).rstrip("\n")
    ran = otherwise = 0
    with tempfile.TemporaryDirectory() as folder:
        os.chdir(folder)
        library = compiled(GIVING, f"{folder}/giving.so")
        write_files()
        for words, least in COMMANDS:
            outcomes = [Outcome(program, words, number, library) for number in NUMBERS]
            ran += len(outcomes)
            if words == COMMANDS[0][0]:
                with open("mesh.topojson", "wb") as file:
                    file.write(outcomes[0].output)
            if difference := what_differs(words, outcomes, least):
                otherwise += 1
                print(f"{words}: {difference}")
        os.chdir("/")
    print(f"{ran} runs of {len(COMMANDS)} commands, {otherwise} of which went otherwise")
    sys.exit(1 if otherwise or ran != RUNS else 0)


if __name__ == "__main__":
    main()
