#!/usr/bin/env python3
"""Holds `simplify --keep-shapes` to its definition, on random small topologies, by an area and by a share, with and without `--no-crossings`, and
`build --keep-shapes` to the first:

    scripts/kept_shapes.py N [--program path/to/mapchain] [--seed N] [--plain]

N layers are made, of few polygons, lines and collections between few places. Each is built in full by the program. What that writes is simplified by
the program, and here by the definition itself: of each feature the outer ring that encloses most is protected, of all corners under the threshold
that may go the least goes, again and again, and each is looked at anew each time; then lines and rings are dropped that are small, unless they are
protected. Where an area of rings is given, those that are small as they stand go before that, with the arcs that nothing else uses. For a share they go so without a threshold, and the one that is chosen is found among their weights. The layer is also built with the same
options, on the same grid: that is to write the same. It ends with status 1 where a topology, a report of what is dropped, a threshold or these two
texts differ, or where a feature is lost that has a protected ring. The last line says how many were tried, and how often the option made a
difference. With `--plain` no option is given, and no ring is protected.
"""
import argparse
import json
import os
import random
import subprocess
import sys
import tempfile

from crossings import HERE, cross, may_go


def along(arcs, refs):
    """The positions of a line of these arcs, the places that two arcs share once."""
    line = []
    for ref in refs:
        arc = arcs[ref] if ref >= 0 else arcs[~ref][::-1]
        line += arc[1:] if line else arc
    return line


def clean(line):
    return [p for i, p in enumerate(line) if i == 0 or p != line[i - 1]]


def enclosed(line):
    """Twice what a ring encloses."""
    return abs(sum(p[0] * q[1] - q[0] * p[1] for p, q in zip(line, line[1:])))


def is_long(arcs, refs):
    return len(clean(along(arcs, refs))) >= 4


def outer_rings(shape, path=()):
    """The first ring of each polygon of a shape, with the way to the polygon, in reading order."""
    kind = shape["type"]
    if kind == "Polygon":
        return [(path, shape["arcs"][0])] if shape["arcs"] else []
    if kind == "MultiPolygon":
        return [(path + (i,), rings[0]) for i, rings in enumerate(shape["arcs"]) if rings]
    if kind == "GeometryCollection":
        return [found for i, part in enumerate(shape["geometries"]) for found in outer_rings(part, path + (i,))]
    return []


def features_of(thing):
    return thing["geometries"] if thing["type"] == "GeometryCollection" else [thing]


def protected_ring(arcs, shape):
    """The outer ring of four positions or more that encloses most, the first of equals, with the way to it."""
    best = None
    for path, refs in outer_rings(shape):
        if is_long(arcs, refs):
            size = enclosed(along(arcs, refs))
            if best is None or best[0] < size:
                best = (size, path, refs)
    return best and best[1:]


def keeps(arcs, rings, k, i):
    """Whether each protected ring that uses the arc has four positions or more without this corner."""
    without = [[p for j, (_, p) in enumerate(arc) if (m, j) != (k, i)] for m, arc in enumerate(arcs)]
    return all(is_long(without, refs) for refs in rings if any((ref if ref >= 0 else ~ref) == k for ref in refs))


def next_corner(arcs, rings, no_crossings, threshold):
    """The corner that goes next, if there is one: its doubled area, and its place in its arc. It is under the threshold, if one is given."""
    corners = []
    for k, arc in enumerate(arcs):
        for i in range(1, len(arc) - 1):
            area = abs(cross(arc[i - 1][1], arc[i][1], arc[i + 1][1]))
            if threshold is None or area < threshold:
                corners.append((area, arc[i][1], k, arc[i][0], i))
    for area, _, k, _, i in sorted(corners):
        if (not no_crossings or may_go(arcs, k, i)) and keeps(arcs, rings, k, i):
            return area, k, i
    return None


def reduced(arcs, rings, no_crossings, threshold):
    arcs = [list(enumerate(arc)) for arc in arcs]
    while corner := next_corner(arcs, rings, no_crossings, threshold):
        del arcs[corner[1]][corner[2]]
    return [[index for index, _ in arc] for arc in arcs]


def share_chosen(arcs, rings, no_crossings, part, whole):
    """The greatest of zero and the weights at which the share stays: one that never goes has none, and stays."""
    count = sum(max(len(arc) - 2, 0) for arc in arcs)
    arcs = [list(enumerate(arc)) for arc in arcs]
    weights, greatest = [], 0
    while corner := next_corner(arcs, rings, no_crossings, None):
        greatest = max(greatest, corner[0])
        weights.append(greatest)
        del arcs[corner[1]][corner[2]]
    stay = lambda t: count - sum(weight < t for weight in weights)
    return max([0] + [t for t in weights if part * count <= whole * stay(t)])


class Dropping:
    """What is left of the objects over reduced arcs, and what is dropped, beside what went before, with its causes."""

    def __init__(self, arcs, limit, gone=None):
        self.arcs, self.limit, self.gone, self.drops = arcs, limit, gone or {}, []

    def is_small(self, closed, refs):
        line = clean(along(self.arcs, refs))
        return len(line) < (4 if closed else 2) or closed and enclosed(line) < self.limit

    def line(self, refs, way):
        if way in self.gone:
            self.drops.append((way, self.gone[way]))
            return None
        if self.is_small(False, refs):
            self.drops.append((way, "small"))
            return None
        return refs

    def polygon(self, rings, way, is_protected):
        if not rings:
            return None
        gone = way + (0,) in self.gone or not is_protected and self.is_small(True, rings[0])
        left = []
        for i, refs in enumerate(rings):
            if way + (i,) in self.gone:
                self.drops.append((way + (i,), self.gone[way + (i,)]))
            elif i == 0 and is_protected:
                left.append(refs)
            elif self.is_small(True, refs):
                self.drops.append((way + (i,), "small"))
            elif gone:
                self.drops.append((way + (i,), "outer"))
            else:
                left.append(refs)
        return None if gone else left

    def shape(self, shape, way, protected):
        kind = shape["type"]
        if kind is None or kind in ("Point", "MultiPoint"):
            return shape
        if kind == "LineString":
            left = self.line(shape["arcs"], way)
        elif kind == "MultiLineString":
            left = [refs for i, refs in enumerate(shape["arcs"]) if self.line(refs, way + (i,)) is not None]
        elif kind == "Polygon":
            left = self.polygon(shape["arcs"], way, protected == ())
        elif kind == "MultiPolygon":
            left = []
            for i, rings in enumerate(shape["arcs"]):
                area = self.polygon(rings, way + (i,), protected == (i,))
                if area is not None:
                    left.append(area)
        else:
            inside = lambda i: protected[1:] if protected and protected[0] == i else None
            parts = [self.shape(part, way + (i,), inside(i)) for i, part in enumerate(shape["geometries"])]
            return dict(shape, geometries=[part for part in parts if part is not None])
        return dict(shape, arcs=left) if left else None


def renumbered(thing, numbers):
    if isinstance(thing, list):
        return [renumbered(part, numbers) for part in thing]
    return numbers[thing] if thing >= 0 else ~numbers[~thing]


def all_refs(thing):
    if isinstance(thing, int):
        return [thing if thing >= 0 else ~thing]
    if isinstance(thing, list):
        return [ref for part in thing for ref in all_refs(part)]
    return all_refs(thing.get("arcs", [])) + [ref for part in thing.get("geometries", []) for ref in all_refs(part)]


def with_numbers(thing, numbers):
    thing = dict(thing)
    if "arcs" in thing:
        thing["arcs"] = renumbered(thing["arcs"], numbers)
    if "geometries" in thing:
        thing["geometries"] = [with_numbers(part, numbers) for part in thing["geometries"]]
    return thing


def cells(arc):
    """The cells of an arc on a grid, of which each but the first is written by its difference."""
    x = y = 0
    for dx, dy in arc:
        x, y = x + dx, y + dy
        yield x, y


def decoded(topology):
    """The positions of the arcs, in units of 10^-9, so that all is whole."""
    units = lambda numbers: [round(number * 10**9) for number in numbers]
    if "transform" not in topology:
        return [[tuple(units(position)) for position in arc] for arc in topology["arcs"]]
    (width, height), (left, low) = (units(topology["transform"][name]) for name in ("scale", "translate"))
    return [[(x * width + left, y * height + low) for x, y in cells(arc)] for arc in topology["arcs"]]


def retained(topology, kept):
    """The arcs as they are written, of which these cells stay."""
    if "transform" not in topology:
        return [[arc[i] for i in indexes] for arc, indexes in zip(topology["arcs"], kept)]
    stay = [[list(cells(arc))[i] for i in indexes] for arc, indexes in zip(topology["arcs"], kept)]
    return [[list(arc[0])] + [[q[0] - p[0], q[1] - p[1]] for p, q in zip(arc, arc[1:])] for arc in stay]


def expected(topology, protects, no_crossings, area, share, ring_area):
    """The topology that is left by the definition, what is dropped, the protected rings, and the threshold that is chosen, for a share."""
    lines = decoded(topology)
    unit = 2 * 10**18
    chosen = {}
    for name, thing in topology["objects"].items():
        for number, feature in enumerate(features_of(thing)):
            found = protected_ring(lines, feature) if protects and feature["type"] else None
            if found:
                chosen[name, number] = found
    gone, in_use = {}, range(len(lines))
    if ring_area > 0 and (protects or no_crossings):
        stay = []
        for name, thing in topology["objects"].items():
            for number, feature in enumerate(features_of(thing)):
                first = Dropping(lines, unit * ring_area)
                stay.append(first.shape(feature, (), chosen.get((name, number), (None,))[0]))
                gone[name, number] = dict(first.drops)
        in_use = sorted({ref for shape in stay if shape for ref in all_refs(shape)})
    place = {k: i for i, k in enumerate(in_use)}
    some, rings = [lines[k] for k in in_use], [renumbered(refs, place) for _, refs in chosen.values()]
    threshold = share_chosen(some, rings, no_crossings, *share) if share else unit * area
    left = reduced(some, rings, no_crossings, threshold)
    kept = [left[place[k]] if k in place else range(len(line)) for k, line in enumerate(lines)]
    arcs = [[line[i] for i in indexes] for line, indexes in zip(lines, kept)]
    drops, objects = [], {}
    for layer, (name, thing) in enumerate(topology["objects"].items()):
        left = []
        for number, feature in enumerate(features_of(thing)):
            dropping = Dropping(arcs, unit * ring_area, gone.get((name, number)))
            way = chosen.get((name, number), (None,))[0]
            shape = dropping.shape(feature, (), way)
            if shape is None:
                shape = {"type": None} | {key: feature[key] for key in ("id", "properties") if key in feature}
            left.append(shape)
            drops += [f"drop {layer} {number} {'.'.join(map(str, path))} {why}" if path else f"drop {layer} {number} - {why}" for path, why in dropping.drops]
        objects[name] = dict(thing, geometries=left) if thing["type"] == "GeometryCollection" else left[0]
    used = sorted({ref for thing in objects.values() for ref in all_refs(thing)})
    numbers = {k: i for i, k in enumerate(used)}
    objects = {name: with_numbers(thing, numbers) for name, thing in objects.items()}
    written = retained(topology, kept)
    return {"objects": objects, "arcs": [written[k] for k in used]}, drops, chosen, [f"chosen {threshold}"] if share else []


def unbounded(text):
    """What a written topology says of shapes and arcs."""
    topology = json.loads(text)
    return {name: topology[name] for name in ("objects", "arcs")}


def ring_made(source, place):
    if source.random() < 0.5:
        x, y = place()
        w, h = source.randrange(1, 4), source.randrange(1, 4)
        ring = [(x, y), (x + w, y), (x + w, y + h), (x, y + h)]
        if source.random() < 0.3:
            ring = ring[:3]
        if source.random() < 0.3:
            ring.insert(source.randrange(1, len(ring)), place())
    else:
        ring = [place() for _ in range(source.randrange(3, 8))]
    if source.random() < 0.4:
        ring.reverse()
    return ring + ring[:1]


def shape_made(source, place, depth=0):
    kind = source.randrange(7 if depth < 2 else 6)
    rings = lambda: [ring_made(source, place) for _ in range(source.choice((1, 1, 1, 2, 3)))]
    if kind <= 2:
        return {"type": "Polygon", "coordinates": rings()}
    if kind <= 4:
        return {"type": "MultiPolygon", "coordinates": [rings() for _ in range(source.randrange(1, 4))]}
    if kind == 5:
        return {"type": "LineString", "coordinates": [place() for _ in range(source.randrange(2, 6))]}
    return {"type": "GeometryCollection", "geometries": [shape_made(source, place, depth + 1) for _ in range(source.randrange(0, 4))]}


def layer_made(source):
    size = source.choice((3, 4, 5, 8))
    place = lambda: (source.randrange(size), source.randrange(size))
    features = []
    for _ in range(source.randrange(1, 6)):
        shape = None if source.random() < 0.05 else shape_made(source, place)
        features.append({"type": "Feature", "properties": None, "geometry": shape})
    return json.dumps({"type": "FeatureCollection", "features": features})


def run(program, *words):
    return subprocess.run([program, *words], capture_output=True, check=True, text=True)


def reported(ran, word):
    return [line for line in (ran.stdout + ran.stderr).splitlines() if line.startswith(word + " ")]


def main():
    words = argparse.ArgumentParser()
    words.add_argument("many", type=int)
    words.add_argument("--program")
    words.add_argument("--seed", type=int, default=1)
    words.add_argument("--plain", action="store_true")
    given = words.parse_args()
    program = given.program or subprocess.run([f"{HERE}/program-path.sh"], capture_output=True, check=True, text=True).stdout.strip()
    source = random.Random(given.seed)
    wrong = differing = 0
    with tempfile.TemporaryDirectory() as room:
        layer, full = os.path.join(room, "layer.json"), os.path.join(room, "full.topojson")
        for number in range(given.many):
            text = layer_made(source)
            with open(layer, "w", encoding="utf-8") as file:
                file.write(text)
            grid = source.choice(([], ["--grid", "5"], ["--grid", "11"]))
            run(program, "build", "-q", *grid, "-o", full, f"a={layer}")
            with open(full, encoding="utf-8") as file:
                topology = json.load(file)
            area, ring_area = source.choice((0, 0.5, 1, 2.5, 10, 50)), source.choice((0, 0, 1, 4))
            no_crossings = not given.plain and source.random() < 0.5
            flags = [] if given.plain else ["--keep-shapes"] + ["--no-crossings"] * no_crossings
            share = None if given.plain or source.random() < 0.6 else source.choice(((0, 1), (1, 1), (1, 2), (1, 3), (4, 5)))
            level = ["--keep", f"{share[0]}/{share[1]}"] if share else ["--min-area", str(area)]
            asked = [*flags, *level, "--min-ring-area", str(ring_area)]
            wanted, drops, chosen, threshold = expected(topology, not given.plain, no_crossings, area, share, ring_area)
            ran = run(program, "simplify", *asked, full)
            got = reported(ran, "drop"), reported(ran, "chosen")
            if unbounded(ran.stdout) != wanted or got != (drops, threshold):
                wrong += 1
                print(f"layer {number} {grid} {asked}: {text}\n  full   {json.dumps(topology)}\n  wanted {json.dumps(wanted)} {drops} {threshold}\n  got    {ran.stdout} {got}")
            for name, feature in chosen:
                if features_of(json.loads(ran.stdout)["objects"][name])[feature]["type"] is None:
                    wrong += 1
                    print(f"layer {number} {grid} {asked}: feature {feature} is lost: {text}")
            if run(program, "build", *grid, *asked, f"a={layer}").stdout != ran.stdout:
                wrong += 1
                print(f"layer {number} {grid} {asked}: isn't built as it is simplified: {text}")
            if flags:
                differing += run(program, "simplify", *asked[len(flags):], full).stdout != ran.stdout
    print(f"kept shapes: {given.many} layers tried, {wrong} wrong; the option made a difference to {differing}")
    return 1 if wrong else 0


if __name__ == "__main__":
    sys.exit(main())
