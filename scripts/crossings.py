#!/usr/bin/env python3
"""Holds `simplify --no-crossings`, by an area and by a share, and `stat --crossings` to their definitions, on random small topologies, and
`build --no-crossings` to the first:

    scripts/crossings.py N [--program path/to/mapchain] [--seed N]

N topologies are made, of few arcs between few places, so that lines cross, touch, lie on one another and go back, and so that corners wait for
others. Each is simplified by the program, and here by the definition itself: of all corners under the threshold that may go the least goes, again
and again, and each is looked at anew each time. For a share they go so without a threshold, and the one that is chosen is found among their weights. And
the pairs of its segments that meet badly are counted by both, and the first twenty named. Its lines are also built as a layer, without a grid or on
one: what that writes, and chooses, is to be what `simplify --no-crossings` makes of the layer that is built in full, by the area and by the share. It
ends with status 1 where the arcs, the counts, the pairs, the thresholds or the texts differ, or where more pairs meet badly than before. The last line
says how many were tried, and how often the option made a difference.
"""
import argparse
import json
import os
import random
import re
import subprocess
import sys
import tempfile

HERE = os.path.dirname(os.path.realpath(__file__))


def cross(a, b, q):
    """The cross product of the ways from a to b and from a to q."""
    return (b[0] - a[0]) * (q[1] - a[1]) - (b[1] - a[1]) * (q[0] - a[0])


def is_on(a, b, q):
    """Whether q lies on the segment from a to b."""
    if cross(a, b, q) != 0:
        return False
    return min(a[0], b[0]) <= q[0] <= max(a[0], b[0]) and min(a[1], b[1]) <= q[1] <= max(a[1], b[1])


def holds(a, p, c, q):
    """Whether the closed triangle of a, p and c holds q."""
    if is_on(a, c, q) or is_on(a, p, q) or is_on(p, c, q):
        return True
    turns = [cross(a, p, q), cross(p, c, q), cross(c, a, q)]
    return cross(a, p, c) != 0 and (all(turn >= 0 for turn in turns) or all(turn <= 0 for turn in turns))


def meets_badly(one, other):
    """Whether two segments have more in common than an end of both."""
    (a, b), (c, d) = one, other
    if {a, b} == {c, d}:
        return True
    sides = lambda x, y, u, v: cross(x, y, u) * cross(x, y, v) < 0
    if sides(a, b, c, d) and sides(c, d, a, b):
        return True
    touches = lambda x, y, q: is_on(x, y, q) and q not in (x, y)
    return touches(a, b, c) or touches(a, b, d) or touches(c, d, a) or touches(c, d, b)


def bad_pairs(arcs):
    """The pairs of segments of arcs that meet badly, in order."""
    segments = [pair for arc in arcs for pair in zip(arc, arc[1:]) if pair[0] != pair[1]]
    return [(one, other) for i, one in enumerate(segments) for other in segments[i + 1 :] if meets_badly(one, other)]


def crossings(arcs):
    """How many they are."""
    return len(bad_pairs(arcs))


def may_go(arcs, k, i):
    """Whether the corner of arc k at its place i may go: no place is in its triangle, and nothing joins its neighbours."""
    (_, a), (_, p), (_, c) = arcs[k][i - 1 : i + 2]
    for j, arc in enumerate(arcs):
        for m, (_, q) in enumerate(arc):
            if (j, m) != (k, i) and q not in (a, c) and holds(a, p, c, q):
                return False
        for m in range(len(arc) - 1):
            own = j == k and m in (i - 1, i)
            if a != c and not own and {arc[m][1], arc[m + 1][1]} == {a, c}:
                return False
    return True


def next_corner(arcs, threshold):
    """The corner that goes next, if there is one: its doubled area, and its place in its arc. It is under the threshold, if one is given."""
    corners = []
    for k, arc in enumerate(arcs):
        for i in range(1, len(arc) - 1):
            area = abs(cross(arc[i - 1][1], arc[i][1], arc[i + 1][1]))
            if threshold is None or area < threshold:
                corners.append((area, arc[i][1], k, arc[i][0], i))
    found = next((corner for corner in sorted(corners) if may_go(arcs, corner[2], corner[4])), None)
    return found and (found[0], found[2], found[4])


def reduced(arcs, threshold):
    """The arcs by the definition. A corner is under the threshold where twice its area is."""
    arcs = [list(enumerate(arc)) for arc in arcs]
    while corner := next_corner(arcs, threshold):
        del arcs[corner[1]][corner[2]]
    return [[p for _, p in arc] for arc in arcs]


def weights(arcs):
    """The weights of the positions between the ends of arcs, by the definition: one that never goes has none."""
    count = sum(max(len(arc) - 2, 0) for arc in arcs)
    arcs = [list(enumerate(arc)) for arc in arcs]
    found, greatest = [], 0
    while corner := next_corner(arcs, None):
        greatest = max(greatest, corner[0])
        found.append(greatest)
        del arcs[corner[1]][corner[2]]
    return found + [None] * (count - len(found))


def threshold_of(arcs, part, whole):
    """The threshold of a share: of 0 and the weights the greatest at which at least the share of the positions stays."""
    found = weights(arcs)
    stay = lambda t: sum(weight is None or weight >= t for weight in found)
    return max(t for t in [0] + [weight for weight in found if weight is not None] if part * len(found) <= whole * stay(t))


def made(source):
    """The arcs of a topology: each goes from one of a few places to another, by others."""
    size = source.choice((2, 3, 3, 4, 5, 8))
    place = lambda: (source.randrange(size), source.randrange(size))
    ends = [place() for _ in range(3)]
    arcs = []
    for _ in range(source.randrange(1, 6)):
        arcs.append([source.choice(ends)] + [place() for _ in range(source.randrange(0, 8))] + [source.choice(ends)])
        if source.random() < 0.15:
            arcs.append(arcs[-1][:: source.choice((1, -1))])
    return arcs


def text_of(arcs):
    lines = [{"type": "LineString", "arcs": [k]} for k in range(len(arcs))]
    objects = {"a": {"type": "GeometryCollection", "geometries": lines}}
    return json.dumps({"type": "Topology", "objects": objects, "arcs": arcs})


def chosen(ran):
    """The threshold that the report of a run says was chosen, if any."""
    name, number = ran.stderr.splitlines()[-1].split()
    return int(number) if name == b"chosen" else None


def simplified(program, room, arcs, options):
    """The arcs that the program leaves, and the threshold that it chose, if any. A line that is left with one position is dropped with its arc, so
    there is an arc for each line that stays."""
    path = os.path.join(room, "map.topojson")
    with open(path, "w", encoding="utf-8") as file:
        file.write(text_of(arcs))
    ran = subprocess.run([program, "simplify", *options, path], capture_output=True, check=True)
    topology = json.loads(ran.stdout)
    lines = [line["arcs"][0] if line["type"] else None for line in topology["objects"]["a"]["geometries"]]
    return [None if k is None else [tuple(p) for p in topology["arcs"][k]] for k in lines], chosen(ran)


def layer_of(arcs):
    lines = [{"type": "Feature", "properties": None, "geometry": {"type": "LineString", "coordinates": arc}} for arc in arcs]
    return json.dumps({"type": "FeatureCollection", "features": lines})


def as_built(program, room, arcs, level, options):
    """Whether building a layer of these lines without crossings writes, and chooses, what simplifying the full topology does."""
    layer, full = os.path.join(room, "layer.json"), os.path.join(room, "full.topojson")
    with open(layer, "w", encoding="utf-8") as file:
        file.write(layer_of(arcs))
    subprocess.run([program, "build", "-q", *options, "-o", full, f"a={layer}"], check=True)
    asked = ["--no-crossings", *level]
    built = subprocess.run([program, "build", *options, *asked, f"a={layer}"], capture_output=True, check=True)
    less = subprocess.run([program, "simplify", *asked, full], capture_output=True, check=True)
    return built.stdout == less.stdout and chosen(built) == chosen(less)


def counted(program, room):
    """How many pairs of segments of the topology that was simplified last meet badly, by the program, and those that it names."""
    report = os.path.join(room, "report.json")
    words = [program, "stat", "--crossings", "--report", report, os.path.join(room, "map.topojson")]
    ran = subprocess.run(words, capture_output=True, check=True, text=True)
    name, count = ran.stdout.splitlines()[-1].split()
    assert name == "crossings"
    with open(report, encoding="utf-8") as file:
        lines = [line for line in json.load(file)["explanation"] if line.startswith("the segment ")]
    return int(count), [segments_of(line) for line in lines]


def segments_of(line):
    """The two segments that a line names."""
    ends = [(int(x), int(y)) for x, y in re.findall(r"\[(-?\d+), (-?\d+)\]", line)]
    return (ends[0], ends[1]), (ends[2], ends[3])


def is_small(arc):
    """Whether a line is left with one position, with equal neighbours as one."""
    return all(p == arc[0] for p in arc)


def main():
    words = argparse.ArgumentParser()
    words.add_argument("many", type=int)
    words.add_argument("--program")
    words.add_argument("--seed", type=int, default=1)
    given = words.parse_args()
    program = given.program or subprocess.run([f"{HERE}/program-path.sh"], capture_output=True, check=True, text=True).stdout.strip()
    source = random.Random(given.seed)
    wrong = differing = held = 0
    with tempfile.TemporaryDirectory() as room:
        for number in range(given.many):
            arcs = made(source)
            area = source.choice((0.5, 1, 1.5, 2.5, 4.5, 10, 50))
            whole = source.choice((1, 2, 3, 4, 10))
            part = source.randrange(whole + 1)
            by_area, by_share = ["--min-area", str(area)], ["--keep", f"{part}/{whole}"]
            threshold = threshold_of(arcs, part, whole)
            for level, wanted, choice in (by_area, reduced(arcs, 2 * area), None), (by_share, reduced(arcs, threshold), threshold * 10**18):
                got, chose = simplified(program, room, arcs, ["--no-crossings", *level])
                if [None if is_small(arc) else arc for arc in wanted] != got or chose != choice:
                    wrong += 1
                    print(f"topology {number} by {level}: {text_of(arcs)}\n  wanted {wanted}, {choice}\n  got    {got}, {chose}")
                left = [arc for arc in got if arc]
                if crossings(left) > crossings(arcs):
                    wrong += 1
                    print(f"topology {number} by {level} has more crossings: {text_of(arcs)}")
                plain, _ = simplified(program, room, arcs, level)
                differing += plain != got
                held += crossings([arc for arc in plain if arc]) > crossings(arcs)
                options = source.choice(([], ["--grid", "4"], ["--grid", "7"]))
                if not as_built(program, room, arcs, level, options):
                    wrong += 1
                    print(f"layer {number} by {level}, {options}, isn't built as it is simplified: {layer_of(arcs)}")
            pairs = bad_pairs(arcs)
            if counted(program, room) != (len(pairs), pairs[:20]):
                wrong += 1
                print(f"topology {number} has {pairs} crossings, and {counted(program, room)} are counted: {text_of(arcs)}")
    print(f"crossings: {given.many} topologies tried, {wrong} wrong; by an area and by a share the option made a difference {differing} times, and {held} times there were more crossings without it")
    return 1 if wrong else 0


if __name__ == "__main__":
    sys.exit(main())
