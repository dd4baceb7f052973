#!/usr/bin/env python3
"""Writes a coast as GeoJSON (RFC 7946) on standard output: one closed ring with bays of many sizes.

    scripts/coast.py 4 > coast.json
    scripts/coast.py 6 > coast.json

The number is N: a ring of ten corners is made finer N - 1 times, each time by nine positions between every two neighbours, which lie
beside the line between these by up to a sixth of its length. So the ring has 10^N positions that aren't its end once more. All
positions have seven decimal places. The same number gives the same bytes.
"""
import argparse
import sys

sys.dont_write_bytecode = True

from mesh import decimal, scattered

# In units of 10^-7.
CORNERS = [
    (-1_400_000_000, -300_000_000), (-900_000_000, -600_000_000), (-200_000_000, -650_000_000),
    (500_000_000, -600_000_000), (1_200_000_000, -450_000_000), (1_450_000_000, 100_000_000),
    (1_000_000_000, 500_000_000), (300_000_000, 650_000_000), (-500_000_000, 600_000_000),
    (-1_200_000_000, 350_000_000),
]


def between(level, number, start, end):
    """The start of a side, and nine positions between it and the end."""
    (x, y), (to_x, to_y) = start, end
    along_x, along_y = to_x - x, to_y - y
    yield start
    for i in range(1, 10):
        aside = scattered(level, number, i, 0) / 6
        yield x + along_x * i // 10 - round(along_y * aside), y + along_y * i // 10 + round(along_x * aside)


def finer(level, ring):
    """The ring with nine positions more between every two neighbours."""
    sides = zip(ring, ring[1:] + ring[:1])
    return [position for number, (start, end) in enumerate(sides) for position in between(level, number, start, end)]


def main():
    parser = argparse.ArgumentParser(description="Writes a coast as GeoJSON.")
    parser.add_argument("digits", type=int, help="N, for 10^N positions")
    words = parser.parse_args()
    if words.digits < 1:
        parser.error("there have to be ten positions at least")
    ring = CORNERS
    for level in range(1, words.digits):
        ring = finer(level, ring)
    positions = ",\n".join(f"[{decimal(x)},{decimal(y)}]" for x, y in ring + ring[:1])
    sys.stdout.write('{"type":"Polygon","coordinates":[[\n' + positions + "\n]]}\n")


if __name__ == "__main__":
    main()
