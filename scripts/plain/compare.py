#!/usr/bin/env python3
"""Gives random files to the program and to the one of plain.rs, and reports the first on which they differ.

    scripts/plain/compare.py release/mapchain plain 3000 7

The third word is how many layers are built, and how many topologies are given to `geo`, `stat` and `simplify`; the fourth is the seed. The
files are those of scripts/random_files.py, and layers of a small lattice, whose lines share much. Layers are built with options of all
kinds, alone and in pairs. What the program takes, the other has to write and report with the same bytes; what the program refuses, the
other has to refuse by status 1.
"""
import collections
import os
import subprocess
import sys
import tempfile

sys.dont_write_bytecode = True
sys.path.insert(0, os.path.join(os.path.dirname(os.path.abspath(__file__)), ".."))

import random_files
from random_files import one_of, rng

statuses = collections.Counter()


def run(program, words):
    """The status, standard output and standard error of a run."""
    ended = subprocess.run([program, *words], capture_output=True)
    return ended.returncode, ended.stdout, ended.stderr


def compare(program, plain, words, paths):
    """Runs both programs, and ends where they differ."""
    words = [word.replace("FILE", paths[0]).replace("OTHER", paths[-1]) for word in words]
    one, other = run(program, words), run(plain, words)
    statuses[words[0], one[0]] += 1
    if one != other if one[0] == 0 else (other[0], other[1]) != (1, b""):
        print("differ:", *words, sep="\n")
        for path in paths:
            with open(path, "rb") as file:
                print(file.read())
        print(one, other, sep="\n")
        sys.exit(1)
    return one


def area():
    return one_of(["0", "0.5", "0.01", "3", "30", "1e4", "1e6", "1e15", "1e18", "-0", "1.5e0", "0.000000000000000001", "-1", "1e19", "01"])


def share():
    return one_of(["0/1", "1/2", "1/3", "2/3", "9/10", "7/8", "1/1", "00/05", "999999999/1000000000", "3/2", "1/0"])


def options():
    """Words of options for `build`."""
    words = []
    if rng.random() < 0.4:
        words += ["--grid", one_of(["2", "3", "10", "100", "1000", "1000000", "1000000000", "1", "x"])]
    if rng.random() < 0.5:
        words += ["--min-area", area()]
    elif rng.random() < 0.4:
        words += ["--keep", share()]
    if rng.random() < 0.3:
        words += ["--min-ring-area", area()]
    if rng.random() < 0.1:
        words.append("--exact")
    return words


def decimal_text(value):
    """The decimal text of a number, of nine places at most."""
    text = "%.9f" % value
    return text.rstrip("0").rstrip(".") if rng.random() < 0.8 else text


def lattice():
    """A layer whose lines and rings run along a small lattice, so that they share, cross and turn back much."""
    size = one_of([2, 3, 4, 6])
    factor = one_of([1, 1, 0.5, 0.1, 1e-9, 12.3456789, 1e7])

    def spot(x, y):
        return "[%s,%s]" % tuple(decimal_text(v * factor) for v in (x, y))

    def walk(closed):
        x, y = rng.randrange(size), rng.randrange(size)
        path = [(x, y)]
        for _ in range(one_of([1, 2, 3, 4, 6, 9, 20])):
            dx, dy = one_of([(1, 0), (-1, 0), (0, 1), (0, -1), (0, 0), (1, 1)])
            x, y = max(0, min(size, x + dx)), max(0, min(size, y + dy))
            path.append((x, y))
        if closed:
            path += [path[0]] * max(1, 4 - len(path))
        return path

    walks = [walk(one_of([True, False])) for _ in range(one_of([1, 2, 4]))]

    def line(closed):
        path = list(one_of(walks)) if rng.random() < 0.6 else walk(closed)
        if rng.random() < 0.5:
            path.reverse()
        if closed:
            turned = rng.randrange(len(path))
            path = path[turned:] + path[:turned]
            path += [path[0]] * max(1, 4 - len(path))
        return "[%s]" % ",".join(spot(*place) for place in path)

    def shape(deep=0):
        kind = one_of(["LineString", "MultiLineString", "Polygon", "Polygon", "MultiPolygon", "Point", "GeometryCollection"])
        if kind == "GeometryCollection":
            inside = ",".join(shape(deep + 1) for _ in range(rng.randrange(3))) if deep < 2 else ""
            return '{"type":"GeometryCollection","geometries":[%s]}' % inside
        some = lambda part: "[%s]" % ",".join(part() for _ in range(one_of([1, 1, 2, 3])))
        coordinates = {
            "Point": lambda: spot(rng.randrange(size), rng.randrange(size)),
            "LineString": lambda: line(False),
            "MultiLineString": lambda: some(lambda: line(False)),
            "Polygon": lambda: some(lambda: line(True)),
            "MultiPolygon": lambda: some(lambda: some(lambda: line(True))),
        }[kind]()
        return '{"type":"%s","coordinates":%s}' % (kind, coordinates)

    features = ",".join('{"type":"Feature","id":%d,"properties":{"n":%d},"geometry":%s}' % (i, i, shape()) for i in range(one_of([1, 2, 5])))
    return ('{"type":"FeatureCollection","features":[%s]}' % features).encode()


def write(path, data):
    with open(path, "wb") as file:
        file.write(data)


def topology(program, paths):
    """A topology: a random one, or one that the program builds of a random layer, mangled or not."""
    kind = rng.random()
    if kind < 0.4:
        return random_files.random_topology()
    write(paths[0], lattice() if kind < 0.8 else random_files.random_layer(tame=True))
    grid = one_of([[], ["--grid", one_of(["2", "3", "100", "1000", "1000000000"])]])
    built = run(program, ["build", *grid, "a=" + paths[0]])
    assert built[0] == 0, built
    return built[1] if kind < 0.7 else random_files.random_mangled(built[1].decode())


def main():
    program, plain, count, seed = sys.argv[1:]
    rng.seed(int(seed))
    with tempfile.TemporaryDirectory() as folder:
        paths = [os.path.join(folder, "one.json"), os.path.join(folder, "other.json")]
        for _ in range(int(count)):
            for path in paths:
                write(path, lattice() if rng.random() < 0.5 else random_files.random_layer(tame=rng.random() < 0.2))
            compare(program, plain, ["build", *options(), "a=FILE"], paths[:1])
            compare(program, plain, ["build", *options(), "a=FILE", 'b"\n=OTHER'], paths)
            write(paths[0], topology(program, paths))
            limits = one_of([[], ["--min-area", area()], ["--keep", share()]]) + one_of([[], ["--min-ring-area", area()]])
            for words in (["geo", "--object", one_of("aaab"), "FILE"], ["stat", "FILE"], ["simplify", *limits, "FILE"]):
                compare(program, plain, words, paths[:1])
    print("the same on", count, "layers, pairs of layers and topologies; runs by command and status:")
    for (command, status), times in sorted(statuses.items()):
        print(f"  {command} {status}: {times}")


if __name__ == "__main__":
    main()
