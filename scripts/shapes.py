#!/usr/bin/env python3
"""Writes features of one kind as GeoJSON (RFC 7946) on standard output, each with five properties.

    scripts/shapes.py roads 20000 > roads.json
    scripts/shapes.py points 200000 > points.json
    scripts/shapes.py lakes 10000 --decimals 15 > lakes.json
    scripts/shapes.py houses 100000 > houses.json

The kind says what each feature is: `roads` a LineString of 50 positions, which share nothing, `points` a Point, `lakes` a MultiPolygon of
three polygons, each a ring of 24 positions and its end, the first with a hole of 12, `houses` a Polygon of four corners. The number is how many features there are. Positions
have seven decimal places, or as many as --decimals says, of which those after the seventh differ from zero. The same arguments give
the same bytes.
"""
import argparse
import math
import sys

sys.dont_write_bytecode = True

from mesh import decimal, scattered

ACROSS = 1_000


def position(x, y, more):
    """A position in units of 10^-7, with digits after them."""
    return f"[{decimal(x)}{more},{decimal(y)}{more}]"


def middle(number):
    """Where a feature lies."""
    return (
        -1_700_000_000 + 3_400_000 * (number % ACROSS) + round(900_000 * scattered(number, 0)),
        -800_000_000 + 1_600_000 * (number // ACROSS % ACROSS) + round(400_000 * scattered(number, 1)),
    )


def road(number, more):
    x, y = middle(number)
    positions = []
    for i in range(50):
        x += 20_000 + round(15_000 * scattered(number, i, 2))
        y += round(30_000 * scattered(number, i, 3))
        positions.append(position(x, y, more))
    return '{"type":"LineString","coordinates":[' + ",".join(positions) + "]}"


def ring(number, part, radius, count, more):
    x, y = middle(number)
    x += 700_000 * part
    positions = []
    for i in range(count):
        length = radius * (1 + 0.1 * scattered(number, part, i, count))
        angle = 2 * math.pi * i / count
        positions.append(position(x + round(length * math.cos(angle)), y + round(length * math.sin(angle)), more))
    return "[" + ",".join(positions + positions[:1]) + "]"


def lake(number, more):
    polygons = [[ring(number, part, 250_000, 24, more)] for part in range(3)]
    polygons[0].append(ring(number, 0, 100_000, 12, more))
    return '{"type":"MultiPolygon","coordinates":[' + ",".join("[" + ",".join(rings) + "]" for rings in polygons) + "]}"


def house(number, more):
    x, y = middle(number)
    across, along = 900 + round(400 * scattered(number, 4)), 1_200 + round(600 * scattered(number, 5))
    corners = ((0, 0), (across, along // 3), (across - along // 4, along), (-along // 4, along - along // 3), (0, 0))
    return '{"type":"Polygon","coordinates":[[' + ",".join(position(x + right, y + up, more) for right, up in corners) + "]]}"


def point(number, more):
    return '{"type":"Point","coordinates":' + position(*middle(number), more) + "}"


KINDS = {"houses": ("House", house), "roads": ("Road", road), "points": ("Point", point), "lakes": ("Lake", lake)}


def feature(number, name, geometry):
    properties = (
        f'{{"name":"{name} {number}","code":"{name[0]}{number:06d}","count":{number * 37 % 100_000},'
        f'"share":{number * 31 % 1000 / 1000},"whole":{"true" if number % 2 else "false"}}}'
    )
    return f'{{"type":"Feature","id":{number},"properties":{properties},"geometry":{geometry}}}'


def main():
    parser = argparse.ArgumentParser(description="Writes features of one kind as GeoJSON.")
    parser.add_argument("kind", choices=sorted(KINDS), help="what each feature is")
    parser.add_argument("count", type=int, help="how many features there are")
    parser.add_argument("--decimals", type=int, default=7, help="the decimal places, seven or more")
    words = parser.parse_args()
    if words.count < 1 or words.decimals < 7:
        parser.error("there has to be a feature, and seven decimal places")
    name, shape = KINDS[words.kind]
    more = "3141592653589793"[: words.decimals - 7]
    out = sys.stdout
    out.write('{"type":"FeatureCollection","features":[')
    for number in range(words.count):
        out.write((",\n" if number else "\n") + feature(number, name, shape(number, more)))
    out.write("\n]}\n")


if __name__ == "__main__":
    main()
