#!/usr/bin/env python3
"""Runs the commands of docs/GUIDE.md, and compares what they write, the guide's pictures and its computed tables with what stands there:

    scripts/guide.py                     the program of ./mapchain, which is proved and built first where it has to be
    scripts/guide.py path/to/mapchain    another program with the same commands
    scripts/guide.py --write ..          writes into docs/ what came, in the place of what stood there

It needs Debian's packages gdal-bin and r-cran-rnaturalearthdata: the guide's shapefile is made of the countries that the latter has, which
are those of Natural Earth at 1:50 million, in the public domain. They are read when the script runs, and aren't in the repository. The page
of its last section is tried in a browser by scripts/web-example.py, which needs more packages; --write takes its picture there.

A block `KIND file NAME` of the guide is a file. A block `console` has commands for bash, each after `$ `, with what each writes below it,
standard output and standard error as they come. They run one after another in a folder with `countries.shp` and the files of examples/;
`mapchain` and `mapchain-picture` are on the path. What they leave in files `guide-*.svg` are the pictures. A table between a line
`<!-- made: NAME -->` and a line `<!-- end -->` is computed here. The status is 0 where all is as it stands and the page was tried.
"""
import argparse
import math
import os
import re
import shutil
import subprocess
import sys
import tempfile
from pathlib import Path

sys.dont_write_bytecode = True

from pages import ROOT, bytes_of

GUIDE = ROOT / "docs" / "GUIDE.md"
KINDS = ["json", "text"]
EARTH = 6_371_000
PIXEL = 0.00028

# Writes the countries as lines of CSV, each with its polygons as WKT. A ring whose number in the comment isn't 0 is a hole of the ring
# of that number.
EXPORT = r"""
countries <- rnaturalearthdata::countries50
decimals <- function(numbers) format(numbers, digits = 15, trim = TRUE, scientific = FALSE)
ring <- function(each) paste0("(", paste(decimals(each@coords[, 1]), decimals(each@coords[, 2]), collapse = ","), ")")
polygons <- function(country) {
  rings <- country@Polygons
  around <- if (is.null(comment(country))) rep(0, length(rings)) else as.integer(strsplit(comment(country), " ")[[1]])
  polygon <- function(outer) paste0("(", paste(sapply(rings[c(outer, which(around == outer))], ring), collapse = ","), ")")
  paste0("MULTIPOLYGON(", paste(sapply(which(around == 0), polygon), collapse = ","), ")")
}
about <- countries@data[, c("name", "iso_a3", "pop_est", "subregion")]
write.csv(data.frame(WKT = sapply(countries@polygons, polygons), about), "countries.csv", row.names = FALSE, na = "")
"""


def make_shapefile(folder):
    if not shutil.which("Rscript") or not shutil.which("ogr2ogr"):
        sys.exit("guide: it needs Debian's packages gdal-bin and r-cran-rnaturalearthdata")
    (folder / "export.R").write_text(EXPORT)
    (folder / "countries.csvt").write_text('"WKT","String(40)","String(3)","Integer64","String(40)"\n')
    fields = "name,iso_a3,pop_est,subregion"
    options = ["-f", "ESRI Shapefile", "-a_srs", "EPSG:4326", "-lco", "ENCODING=UTF-8", "-select", fields]
    for words in [["Rscript", "export.R"], ["ogr2ogr", *options, "countries.shp", "countries.csv"]]:
        subprocess.run(words, cwd=folder, check=True, stdout=subprocess.DEVNULL)
    for name in ["export.R", "countries.csv", "countries.csvt"]:
        (folder / name).unlink()


def rounded(number, digits):
    """A whole number, or one below 10 with so many digits, for people."""
    if number >= 10:
        return f"{float(f'{number:.{digits}g}'):,.0f}"
    return f"{number:.{digits}g}"


def degrees():
    yield "| Latitude | A degree sideways | `--min-area 0.0001` is |"
    yield "|---|---|---|"
    degree = math.radians(1) * EARTH / 1000
    for latitude in [0, 30, 45, 60, 70, 80]:
        narrowing = math.cos(math.radians(latitude))
        yield f"| {latitude}° | {degree * narrowing:.1f} km | {0.0001 * degree * degree * narrowing:.2f} km² |"


def scales():
    yield "| Scale | Zoom | A pixel on the ground | `--min-area`, m² | `--grid`, 100 km wide | 1,000 km wide | 10,000 km wide |"
    yield "|---|---|---|---|---|---|---|"
    for scale in [50_000_000, 20_000_000, 10_000_000, 5_000_000, 1_000_000, 250_000, 50_000, 10_000]:
        pixel = scale * PIXEL
        zoom = math.log2(2 * math.pi * 6_378_137 / 256 / pixel)
        grids = [max(2, math.ceil(4 * width / pixel)) for width in [100_000, 1_000_000, 10_000_000]]
        cells = " | ".join(rounded(grid, 2).replace(",", "") for grid in grids)
        area = rounded(pixel * pixel, 3).replace(",", "")
        yield f"| 1:{scale:,} | {zoom:.1f} | {rounded(pixel, 3)} m | {area} | {cells} |"


TABLES = {"degrees": degrees, "scales": scales}


class Guide:
    def __init__(self, folder, environment):
        self.folder, self.environment = folder, environment
        self.ran = 0

    def run(self, command):
        self.ran += 1
        ended = subprocess.run(
            ["bash", "-c", command], cwd=self.folder, env=self.environment,
            stdin=subprocess.DEVNULL, stdout=subprocess.PIPE, stderr=subprocess.STDOUT, timeout=300,
        )
        return [f"$ {command}", *ended.stdout.decode().rstrip("\n").split("\n")] if ended.stdout else [f"$ {command}"]

    def block(self, head, lines):
        """What stands in a block once it was run."""
        if match := re.fullmatch(r"(\w+) file (\S+)", head):
            (self.folder / match[2]).write_bytes(bytes_of(match[1] if match[1] in KINDS else "text", lines))
            return lines
        if head == "console":
            return [line for command in lines if command.startswith("$ ") for line in self.run(command[2:])]
        raise SystemExit(f"guide: a block that isn't known: {head}")

    def again(self, text):
        """The guide's lines as they come out now."""
        lines = iter(text.split("\n"))
        for line in lines:
            yield line
            if line.startswith("```"):
                yield from self.block(line[3:], list(iter(lambda: next(lines), "```")))
                yield "```"
            elif match := re.fullmatch(r"<!-- made: (\w+) -->", line):
                for _ in iter(lambda: next(lines), "<!-- end -->"):
                    pass
                yield ""
                yield from TABLES[match[1]]()
                yield ""
                yield "<!-- end -->"


def keep(path, wanted, writes):
    """Whether a file is as wanted; it is written if that is asked for."""
    if path.exists() and path.read_bytes() == wanted:
        return 0
    print(f"guide: {path.relative_to(ROOT)} {'is written again' if writes else 'is not what comes'}")
    if writes:
        path.write_bytes(wanted)
    return 1


def main():
    parser = argparse.ArgumentParser(description="Runs the commands of docs/GUIDE.md.")
    parser.add_argument("program", nargs="?", help="the program; without it, that of ./mapchain")
    parser.add_argument("--write", action="store_true", help="write into docs/ what came")
    words = parser.parse_args()
    program = words.program
    if not program:
        program = subprocess.run([ROOT / "scripts" / "program-path.sh"], check=True, capture_output=True, text=True).stdout.strip()
    with tempfile.TemporaryDirectory() as room:
        names, folder = Path(room) / "names", Path(room) / "files"
        names.mkdir()
        folder.mkdir()
        (names / "mapchain").symlink_to(Path(program).resolve())
        (names / "mapchain-picture").symlink_to(ROOT / "scripts" / "picture.py")
        make_shapefile(folder)
        for path in (ROOT / "examples").glob("*.json"):
            shutil.copy(path, folder)
        guide = Guide(folder, {**os.environ, "PATH": f"{names}:{os.environ['PATH']}", "LC_ALL": "C.UTF-8"})
        text = "\n".join(guide.again(GUIDE.read_text()))
        changed = keep(GUIDE, text.encode(), words.write)
        pictures = sorted(folder.glob("guide-*.svg"))
        for picture in pictures:
            changed += keep(ROOT / "docs" / picture.name, picture.read_bytes(), words.write)
        shot = ["--screenshot", ROOT / "docs" / "guide-web.png"] if words.write else []
        page = [ROOT / "scripts" / "web-example.py", "--program", program, *shot, folder / "web.topojson"]
        is_shown = subprocess.run(page).returncode == 0
    print(f"guide: {guide.ran} commands, {len(pictures)} pictures, {changed} files otherwise than they stood")
    if not is_shown:
        print("guide: the page couldn't be tried, or doesn't show the topology: web-example says which")
    sys.exit(0 if is_shown and (words.write or not changed) else 1)


if __name__ == "__main__":
    main()
