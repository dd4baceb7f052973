#!/bin/sh
# Makes the pictures of README.md and examples/README.md again, of what the program writes:
#
#     scripts/pictures.sh                     by the program of ./mapchain, which is proved and built first where it has to be
#     scripts/pictures.sh path/to/mapchain    by another program with the same commands
#
# Those of docs/GUIDE.md are made by scripts/guide.py.
set -eu

root=$(dirname "$(dirname "$(readlink -f "$0")")")
if [ $# -gt 0 ]; then
    program=$(readlink -f "$1")
else
    program=$("$root/scripts/program-path.sh")
fi
work=$(mktemp -d)
trap 'rm -rf "$work"' EXIT
cd "$root"

# draw PICTURE WORD..: the picture of what `build` writes by these words.
draw() {
    picture=$1
    shift
    "$program" build "$@" >"$work/topology" 2>"$work/report" || { cat "$work/report" >&2; exit 1; }
    scripts/picture.py "$work/topology" >"$work/picture"
    mv "$work/picture" "docs/$picture.svg"
}

draw areas areas=examples/areas.json
draw areas-reduced --min-area 0.00002 areas=examples/areas.json
draw areas-reduced-more --min-area 0.00005 areas=examples/areas.json
draw areas-without-island --min-ring-area 0.00001 areas=examples/areas.json
draw areas-half --keep 1/2 areas=examples/areas.json
draw areas-tenth --keep 1/10 areas=examples/areas.json
draw areas-hundredth --keep 1/100 areas=examples/areas.json
scripts/coast.py 3 >"$work/coast.json"
draw coast "coast=$work/coast.json"
draw coast-half --keep 1/2 "coast=$work/coast.json"
draw coast-tenth --keep 1/10 "coast=$work/coast.json"
draw coast-hundredth --keep 1/100 "coast=$work/coast.json"
