#!/usr/bin/env python3
"""Gives random files to two programs of the same commands, and reports the first on which they differ.

    scripts/compare.py old/mapchain new/mapchain 3000 7
    scripts/compare.py --before-bounds old/mapchain new/mapchain 3000 7

The third word is how many layers are built, with and without --exact and a least area of rings, and how many topologies are given to
`geo`, `stat` and `simplify`; the fourth is the seed. With --before-bounds the old program is one that writes no `bbox` and takes no
--min-ring-area: then none is given, and the `bbox` that the new one writes is left out. All are in odd forms of many kinds: numbers,
white space, orders of members, foreign members, escapes, null things, empty arrays, further elements. About half have faults too:
repeated members, wrong types and numbers, short positions, indexes that name no arc or don't meet, cut texts, other bytes. A quarter
of the topologies are those that the old program builds of random layers, mangled in a place or two. Bytes, reports, faults and statuses
have to be the same.
"""
import collections
import re
import subprocess
import sys
import tempfile

sys.dont_write_bytecode = True

import random_files
from random_files import one_of, rng

statuses = collections.Counter()
is_before_bounds = "--before-bounds" in sys.argv
BOUNDS = re.compile(rb'^({"type":"Topology",(?:"transform":{[^{}]*},)?)"bbox":\[[^\]]*\],')


def run(program, words, path):
    """The status, standard output and standard error of a run with the file of this path."""
    ended = subprocess.run([program, *(word.replace("FILE", path) for word in words)], capture_output=True)
    return ended.returncode, ended.stdout, ended.stderr


def compare(old, new, words, path):
    """Runs both programs, and ends where they differ."""
    one, other = run(old, words, path), run(new, words, path)
    if is_before_bounds:
        other = other[0], BOUNDS.sub(rb"\1", other[1]), other[2]
    statuses[words[0], one[0]] += 1
    if one != other:
        with open(path, "rb") as file:
            print("differ:", *words, file.read(), one, other, sep="\n")
        sys.exit(1)


def ring_area():
    """The words of a least area of rings, or none."""
    area = one_of(["0", "0.5", "30", "1e6", "1e15", "1e18", "0.000000000000000001"])
    return [] if is_before_bounds or rng.random() < 0.5 else ["--min-ring-area", area]


def mangled_topology(old, file):
    """A topology that the old program builds of a random layer, mangled."""
    write(file, random_files.random_layer(tame=True))
    grid = one_of([[], ["--grid", one_of(["2", "100", "1000000000"])]])
    built = run(old, ["build", *grid, "a=FILE"], file.name)
    assert built[0] == 0, built
    return random_files.random_mangled(built[1].decode())


def write(file, data):
    file.seek(0)
    file.truncate()
    file.write(data)
    file.flush()


def main():
    old, new, count, seed = [word for word in sys.argv[1:] if word != "--before-bounds"]
    count, seed = int(count), int(seed)
    rng.seed(seed)
    with tempfile.NamedTemporaryFile() as file:
        for _ in range(count):
            write(file, random_files.random_layer())
            for words in (["build", *ring_area(), "a=FILE"], ["build", "--exact", "a=FILE"]):
                compare(old, new, words, file.name)
            write(file, mangled_topology(old, file) if rng.random() < 0.25 else random_files.random_topology())
            area = one_of(["0", "0.5", "3", "1e4", "0.000000000000000001"])
            simplify = ["simplify", "--min-area", area, *ring_area(), "FILE"]
            for words in (["geo", "--object", one_of("aaab"), "FILE"], ["stat", "FILE"], simplify):
                compare(old, new, words, file.name)
    print("the same on", count, "layers and", count, "topologies; runs by command and status:")
    for (command, status), times in sorted(statuses.items()):
        print(f"  {command} {status}: {times}")


if __name__ == "__main__":
    main()
