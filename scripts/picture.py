#!/usr/bin/env python3
"""Draws a topology (TopoJSON 1.0) as an SVG picture on standard output.

    scripts/picture.py map.topojson > map.svg
    ./mapchain build areas=examples/areas.json | scripts/picture.py > docs/areas.svg
    scripts/picture.py --plain --bounds 5,45,11,48 map.topojson > part.svg

Polygons are filled lightly. Each arc is drawn once: thin and grey where one line or ring uses it, thick and red where
two or more do. Its number stands at its middle, and its ends are dots; `--plain` leaves out both, and draws all arcs thin.

Where the topology lies within longitudes from -180 to 180 and latitudes from -90 to 90, its coordinates are taken for degrees, and
those sideways are drawn shorter than those upwards, by the cosine of the latitude in the middle of the picture. Else they are
those of a projection, and drawn as they are. `--degrees` and `--projected` say which it is whatever the numbers are.

Where there is no topology a line on standard error says what is wrong with which file, nothing is drawn, and the status is 1.
"""
import argparse
import json
import math
import sys

WIDTH, MARGIN = 720, 24
FILLS = ["#fdf0d5", "#e0efd8", "#d7e8f5", "#efe1f2", "#f8dcd6"]
ALONE = 'stroke="#555555" stroke-width="1.2"'
SHARED = 'stroke="#c1121f" stroke-width="3.2"'
NUMBER = 'font-size="18" font-weight="bold" text-anchor="middle" dominant-baseline="central"'
HALO = 'stroke="white" stroke-width="5" paint-order="stroke"'


def placed(topology):
    """The positions of each arc: on a grid the sums of its differences, scaled and translated."""
    if not topology.get("transform"):
        return [[place[:2] for place in arc] for arc in topology["arcs"]]
    (kx, ky), (dx, dy) = topology["transform"]["scale"], topology["transform"]["translate"]
    found = []
    for arc in topology["arcs"]:
        x = y = 0
        positions = []
        for step in arc:
            x, y = x + step[0], y + step[1]
            positions.append([x * kx + dx, y * ky + dy])
        found.append(positions)
    return found


def parts(shape):
    """The lines of a geometry object, and its polygons as lists of rings; a line or ring is a list of arc indexes."""
    kind = shape["type"]
    if kind == "GeometryCollection":
        found = [parts(member) for member in shape["geometries"]]
        return sum((lines for lines, _ in found), []), sum((polygons for _, polygons in found), [])
    if kind == "LineString":
        return [shape["arcs"]], []
    if kind == "MultiLineString":
        return shape["arcs"], []
    if kind == "Polygon":
        return [], [shape["arcs"]]
    if kind == "MultiPolygon":
        return [], shape["arcs"]
    return [], []


def joined(indexes, arcs):
    """The positions of a line or ring: its arcs, joined."""
    positions = []
    for index in indexes:
        arc = arcs[index] if index >= 0 else arcs[~index][::-1]
        positions += arc[1:] if positions else arc
    return positions


def middle(positions):
    """The place half way along a line."""
    steps = list(zip(positions, positions[1:]))
    left = sum(math.dist(start, end) for start, end in steps) / 2
    for start, end in steps:
        length = math.dist(start, end)
        if 0 < length >= left:
            return [a + (b - a) * left / length for a, b in zip(start, end)]
        left -= length
    return positions[-1]


def look(users, is_plain):
    """How an arc is drawn that so many lines and rings use."""
    if is_plain:
        return 'stroke="#c1121f" stroke-width="1.2"' if users > 1 else 'stroke="#555555" stroke-width="0.8"'
    return SHARED if users > 1 else ALONE


def path(positions):
    return "M" + "L".join(f"{x:.1f} {y:.1f}" for x, y in positions)


def bounds(lines):
    """The least x and y of lines, and the greatest."""
    places = [place for line in lines for place in line] or [[0, 0], [1, 1]]
    return min(x for x, _ in places), min(y for _, y in places), max(x for x, _ in places), max(y for _, y in places)


def meet(frame, other):
    """Whether two rectangles have a place in common."""
    return frame[0] <= other[2] and other[0] <= frame[2] and frame[1] <= other[3] and other[1] <= frame[3]


def are_degrees(left, low, right, high):
    """Whether bounds are those of longitudes and latitudes. The last coordinate of a grid may lie a little beyond the greatest one."""
    beyond = 0.01
    return -180 - beyond <= left and right <= 180 + beyond and -90 - beyond <= low and high <= 90 + beyond


def picture(topology, words):
    lines = placed(topology)
    whole = bounds(lines)
    left, low, right, high = words.bounds or whole
    narrowing = 1
    if words.degrees or (not words.projected and are_degrees(*whole)):
        narrowing = max(math.cos(math.radians((low + high) / 2)), 0.01)
    scale = (WIDTH - 2 * MARGIN) / (max((right - left) * narrowing, high - low) or 1)
    along = scale * narrowing
    width, height = (right - left) * along + 2 * MARGIN, (high - low) * scale + 2 * MARGIN
    arcs = [[(MARGIN + (p[0] - left) * along, MARGIN + (high - p[1]) * scale) for p in arc] for arc in lines]
    shapes = [s for o in topology["objects"].values() for s in o.get("geometries", [o])]
    frame = (0, 0, width, height)
    found = [parts(shape) for shape in shapes]
    users = [0] * len(arcs)
    for line in [line for lines, polygons in found for line in lines + sum(polygons, [])]:
        for number in {max(index, ~index) for index in line}:
            users[number] += 1
    yield f'<svg xmlns="http://www.w3.org/2000/svg" viewBox="0 0 {width:.0f} {height:.0f}" font-family="sans-serif">'
    yield '<rect width="100%" height="100%" fill="white"/>'
    for i, (_, polygons) in enumerate(found):
        drawn = [[joined(ring, arcs) for ring in rings] for rings in polygons]
        outline = "".join(path(ring) + "Z" for rings in drawn if meet(frame, bounds(rings)) for ring in rings)
        if outline:
            yield f'<path d="{outline}" fill="{FILLS[i % len(FILLS)]}" fill-rule="evenodd"/>'
    arcs = [(number, arc, many) for number, (arc, many) in enumerate(zip(arcs, users)) if meet(frame, bounds([arc]))]
    for _, arc, many in arcs:
        yield f'<path d="{path(arc)}" fill="none" stroke-linejoin="round" {look(many, words.plain)}/>'
    if words.plain:
        yield "</svg>"
        return
    for x, y in sorted({end for _, arc, _ in arcs for end in (arc[0], arc[-1])}):
        yield f'<circle cx="{x:.1f}" cy="{y:.1f}" r="4.5"/>'
    for number, (x, y) in ((number, middle(arc)) for number, arc, _ in arcs):
        yield f'<text x="{x:.1f}" y="{y:.1f}" {NUMBER} {HALO}>{number}</text>'
    yield "</svg>"


def four(text):
    numbers = tuple(map(float, text.split(",")))
    if len(numbers) != 4:
        raise ValueError
    return numbers


def drawing(words):
    """The lines of the picture of the file that the words name, or of standard input."""
    name = words.file or "standard input"
    try:
        with open(words.file, encoding="utf-8") if words.file else sys.stdin as source:
            topology = json.load(source)
    except OSError as error:
        sys.exit(f"picture: {name}: {error.strerror}")
    except (ValueError, RecursionError) as error:
        sys.exit(f"picture: {name} is no JSON: {error}")
    kind = topology.get("type") if isinstance(topology, dict) else None
    if kind != "Topology":
        sys.exit(f"picture: {name} is no topology" + (f", but a {kind}" if isinstance(kind, str) else ""))
    try:
        return list(picture(topology, words))
    except (LookupError, TypeError, ValueError, AttributeError, RecursionError):
        sys.exit(f"picture: {name} can't be drawn: 'mapchain stat --explain' says what is wrong with a topology")


def main():
    parser = argparse.ArgumentParser(description="Draws a topology as an SVG picture on standard output.")
    parser.add_argument("file", nargs="?", help="the topology; without it, standard input")
    parser.add_argument("--plain", action="store_true", help="thin lines, without the numbers of arcs and their ends")
    parser.add_argument("--bounds", type=four, help="the part to draw, as X0,Y0,X1,Y1")
    kind = parser.add_mutually_exclusive_group()
    kind.add_argument("--degrees", action="store_true", help="coordinates are longitudes and latitudes")
    kind.add_argument("--projected", action="store_true", help="coordinates are those of a projection")
    words = parser.parse_args()
    print("\n".join(drawing(words)))


if __name__ == "__main__":
    main()
