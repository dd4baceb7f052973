#!/usr/bin/env python3
"""Writes a mesh as GeoJSON (RFC 7946) on standard output: a grid of cells whose borders are crooked.

    scripts/mesh.py 12 16 > mesh.json
    scripts/mesh.py 124 16 --properties > mesh.json

The first number is N: there are N x N polygons, one for each cell. The second is M: each side of a cell is a line of M
segments, the same for the two cells that share it. So a mesh has 4 * M * N * N positions that aren't the end of a ring
once more, and 2 * N * (N + 1) - 4 arcs. All positions have seven decimal places. With --properties each feature has an
identifier and five properties, else none. The same arguments give the same bytes.
"""
import argparse
import sys

WIDTH, HEIGHT = 3_400_000_000, 1_600_000_000
LEFT, BOTTOM = -1_700_000_000, -800_000_000


def scattered(*numbers):
    """A number from -1 to 1 that depends on these whole numbers alone."""
    state = 0x9E3779B97F4A7C15
    for number in numbers:
        state = ((state ^ (number + 1)) * 0xBF58476D1CE4E5B9) & 0xFFFFFFFFFFFFFFFF
        state ^= state >> 29
    return state / (1 << 63) - 1


def decimal(units):
    """A number of units of 10^-7 as JSON."""
    sign = "-" if units < 0 else ""
    whole, part = divmod(abs(units), 10_000_000)
    return f"{sign}{whole}.{part:07d}"


class Mesh:
    def __init__(self, cells, segments):
        self.cells, self.segments = cells, segments
        self.reach = min(WIDTH, HEIGHT) / (cells * segments) / 3

    def corner(self, column, row):
        return LEFT + WIDTH * column // self.cells, BOTTOM + HEIGHT * row // self.cells

    def side(self, column, row, upwards):
        """The side from this corner to the next one to the right or upwards: its positions as JSON."""
        x, y = self.corner(column, row)
        to_x, to_y = self.corner(column, row + 1) if upwards else self.corner(column + 1, row)
        positions = []
        for i in range(self.segments + 1):
            reach = 0 if i in (0, self.segments) else self.reach
            at_x = x + (to_x - x) * i // self.segments + round(reach * scattered(column, row, upwards, i, 0))
            at_y = y + (to_y - y) * i // self.segments + round(reach * scattered(column, row, upwards, i, 1))
            positions.append(f"[{decimal(at_x)},{decimal(at_y)}]")
        return positions

    def rows(self):
        """Each row of cells, from below, as the lists of positions of their rings."""
        below = [self.side(column, 0, False) for column in range(self.cells)]
        for row in range(self.cells):
            above = [self.side(column, row + 1, False) for column in range(self.cells)]
            walls = [self.side(column, row, True) for column in range(self.cells + 1)]
            for column in range(self.cells):
                back, down = above[column][::-1], walls[column][::-1]
                yield below[column][:-1] + walls[column + 1][:-1] + back[:-1] + down
            below = above


def feature(number, ring, has_properties):
    geometry = '{"type":"Polygon","coordinates":[[' + ",".join(ring) + "]]}"
    if not has_properties:
        return '{"type":"Feature","properties":null,"geometry":' + geometry + "}"
    properties = (
        f'{{"name":"Cell {number}","code":"C{number:06d}","count":{number * 37 % 100_000},'
        f'"share":{number * 31 % 1000 / 1000},"whole":{"true" if number % 2 else "false"}}}'
    )
    return f'{{"type":"Feature","id":{number},"properties":{properties},"geometry":{geometry}}}'


def main():
    parser = argparse.ArgumentParser(description="Writes a mesh of cells as GeoJSON.")
    parser.add_argument("cells", type=int, help="N, the cells in a row")
    parser.add_argument("segments", type=int, help="M, the segments of a cell's side")
    parser.add_argument("--properties", action="store_true", help="with an identifier and properties")
    words = parser.parse_args()
    if words.cells < 1 or words.segments < 1:
        parser.error("there has to be a cell, and a segment in each side")
    out = sys.stdout
    out.write('{"type":"FeatureCollection","features":[')
    for number, ring in enumerate(Mesh(words.cells, words.segments).rows()):
        out.write((",\n" if number else "\n") + feature(number, ring, words.properties))
    out.write("\n]}\n")


if __name__ == "__main__":
    main()
