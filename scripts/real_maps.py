#!/usr/bin/env python3
"""Makes layers of real maps in a folder, to be measured or tried:

    scripts/real_maps.py FOLDER

`shores.json` has the shores of the world and `borders.json` the borders of its countries, as lines, from GSHHG at its high resolution, where shores are
cut at a grid of degrees; 2 million positions. `countries.json` has Natural Earth's countries at 1:50 million as polygons, 100,000 positions. It needs
Debian's packages gmt, gmt-gshhg-high and r-cran-rnaturalearthdata, which are read when the script runs, and aren't in the repository.
"""
import json
import shutil
import subprocess
import sys
from pathlib import Path

COUNTRIES = r"""
countries <- rnaturalearthdata::countries50
numbers <- function(column) format(column, digits = 15, trim = TRUE, scientific = FALSE)
ring <- function(each) paste0("[", paste0("[", numbers(each@coords[, 1]), ",", numbers(each@coords[, 2]), "]", collapse = ","), "]")
feature <- function(country, name) {
  rings <- country@Polygons
  around <- if (is.null(comment(country))) rep(0, length(rings)) else as.integer(strsplit(comment(country), " ")[[1]])
  polygon <- function(outer) paste0("[", paste(sapply(rings[c(outer, which(around == outer))], ring), collapse = ","), "]")
  areas <- paste(sapply(which(around == 0), polygon), collapse = ",")
  paste0('{"type":"Feature","properties":{"name":"', name, '"},"geometry":{"type":"MultiPolygon","coordinates":[', areas, ']}}')
}
features <- mapply(feature, countries@polygons, gsub('"', "", countries@data$name))
writeLines(paste0('{"type":"FeatureCollection","features":[', paste(features, collapse = ",\n"), "]}"), "countries.json")
"""


def lines_of(text):
    """The lines of what gmt writes: one position in a row, and `>` before each line."""
    lines = []
    for row in text.splitlines():
        if row.startswith(">"):
            lines.append([])
        else:
            x, y = row.split()
            lines[-1].append(f"[{x},{y}]")
    return [line for line in lines if len(line) > 1]


def write_lines(path, words):
    text = subprocess.run(["gmt", "coast", "-Dh", "-R-180/180/-90/90", "-M", *words], check=True, capture_output=True, text=True,
                          cwd=path.parent).stdout
    features = [f'{{"type":"Feature","properties":{{}},"geometry":{{"type":"LineString","coordinates":[{",".join(line)}]}}}}' for line in lines_of(text)]
    path.write_text('{"type":"FeatureCollection","features":[' + ",\n".join(features) + "]}\n")


def main():
    if len(sys.argv) != 2:
        sys.exit(__doc__)
    if not shutil.which("gmt") or not shutil.which("Rscript"):
        sys.exit("real_maps: it needs Debian's packages gmt, gmt-gshhg-high and r-cran-rnaturalearthdata")
    folder = Path(sys.argv[1])
    folder.mkdir(parents=True, exist_ok=True)
    write_lines(folder / "shores.json", ["-W"])
    write_lines(folder / "borders.json", ["-N1"])
    subprocess.run(["Rscript", "-e", COUNTRIES], check=True, cwd=folder)
    for name in ("shores", "borders", "countries"):
        print(f"{name}: {len(json.loads((folder / f'{name}.json').read_text())['features'])} features")


main()
