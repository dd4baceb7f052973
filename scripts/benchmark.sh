#!/bin/sh
# Measures the program on meshes (scripts/mesh.py) of 10^4 and 10^6 positions, without and with properties, on roads, points and lakes
# (scripts/shapes.py) with properties, and on a coast (scripts/coast.py), one ring of 10^6 positions:
#
#     scripts/benchmark.sh                    the program of ./mapchain, which is proved and built first where it has to be
#     scripts/benchmark.sh path/to/mapchain   another program with the same commands
#     RUNS=9 scripts/benchmark.sh             the fastest of nine runs each, instead of five
#
# For each mesh and each of `build`, without options, on a grid of 10^6, with an area and with a share of 9/10, `simplify` with the same
# area, `geo` and `stat` (these three on what `build` wrote, `geo` on what it wrote on a grid too) it prints a row of a table: the seconds
# of the fastest run, the MB/s of its input, and the greatest peak of memory. For the coast these are `build` without options, with an
# area at which a third of the positions goes, with one at which nearly all go, and of which a hundredth of the positions stays, and
# `simplify` with these two areas; for roads, points and lakes `build` and `geo`, and for lakes `build` with a least area of rings at
# which their holes go. Then, for each command, the growth: the time a byte at 10^6 positions over that at 10^4. Where topo2geo
# (topojson-client) or ogr2ogr (GDAL) is installed, rows of theirs for the same decoding come beside. Runs follow one another; nothing
# else should run meanwhile.
set -eu

root=$(dirname "$(readlink -f "$0")")/..
program=${1:-}
runs=${RUNS:-5}
work=$(mktemp -d)
trap 'rm -rf "$work"' EXIT
trap 'exit 130' INT TERM

if [ -z "$program" ]; then
    program=$("$root/scripts/program-path.sh") || exit
fi

# row MESH INPUT OUTPUT NAME COMMAND..: runs the command, prints its row, and keeps its time a byte.
row() {
    mesh=$1 input=$2 output=$3 name=$4
    shift 4
    measured=$("$root/scripts/timed.py" "$runs" "$output" "$@") || { echo "benchmark: $name failed on $mesh" >&2; return 1; }
    size=$(wc -c <"$input")
    echo "$measured" | awk -v mesh="$mesh" -v name="$name" -v size="$size" -v rows="$work/rows" '{
        printf "| %s | %.2f | %s | %.3f | %.1f | %.0f |\n", mesh, size / 1e6, name, $1, size / 1e6 / $1, $2
        printf "%s\t%s\t%.6g\n", mesh, name, $1 / size >>rows
    }'
}

# measure MESH N M WORD..: a mesh of N x N cells with M segments a side, and all rows of it.
measure() {
    mesh=$1 cells=$2 segments=$3
    shift 3
    area=$(awk "BEGIN { side = 160 / ($cells * $segments); printf \"%.14f\", side * side / 16 }")
    "$root/scripts/mesh.py" "$cells" "$segments" "$@" >"$work/mesh.json"
    row "$mesh" "$work/mesh.json" "$work/mesh.topojson" build "$program" build "mesh=$work/mesh.json"
    row "$mesh" "$work/mesh.json" "$work/grid.topojson" "build, grid" "$program" build --grid 1000000 "mesh=$work/mesh.json"
    row "$mesh" "$work/mesh.json" "$work/out" "build, area" "$program" build --min-area "$area" "mesh=$work/mesh.json"
    row "$mesh" "$work/mesh.json" "$work/out" "build, share" "$program" build --keep 9/10 "mesh=$work/mesh.json"
    row "$mesh" "$work/mesh.topojson" "$work/out" "simplify, area" "$program" simplify --min-area "$area" "$work/mesh.topojson"
    row "$mesh" "$work/mesh.topojson" "$work/out" geo "$program" geo --object mesh "$work/mesh.topojson"
    row "$mesh" "$work/grid.topojson" "$work/out" "geo, grid" "$program" geo --object mesh "$work/grid.topojson"
    row "$mesh" "$work/mesh.topojson" "$work/out" stat "$program" stat "$work/mesh.topojson"
    if command -v topo2geo >/dev/null; then
        row "$mesh" "$work/mesh.topojson" "$work/out" topo2geo topo2geo --in "$work/mesh.topojson" mesh=- || true
    fi
    if command -v ogr2ogr >/dev/null; then
        row "$mesh" "$work/mesh.topojson" "$work/out" ogr2ogr ogr2ogr -f GeoJSON /vsistdout/ "$work/mesh.topojson" mesh || true
    fi
}

# measure_coast AREA AREA: the rows of the coast, where a third of the positions goes at the first area and nearly all at the second.
measure_coast() {
    "$root/scripts/coast.py" 6 >"$work/coast.json"
    row coast "$work/coast.json" "$work/coast.topojson" build "$program" build "coast=$work/coast.json"
    row coast "$work/coast.json" "$work/out" "build, a third goes" "$program" build --min-area "$1" "coast=$work/coast.json"
    row coast "$work/coast.json" "$work/out" "build, nearly all go" "$program" build --min-area "$2" "coast=$work/coast.json"
    row coast "$work/coast.json" "$work/out" "build, a hundredth stays" "$program" build --keep 1/100 "coast=$work/coast.json"
    row coast "$work/coast.topojson" "$work/out" "simplify, a third goes" "$program" simplify --min-area "$1" "$work/coast.topojson"
    row coast "$work/coast.topojson" "$work/out" "simplify, nearly all go" "$program" simplify --min-area "$2" "$work/coast.topojson"
}

# measure_shapes KIND NUMBER WORD..: the rows of so many features of the kind. Of lakes the holes enclose less than the area.
measure_shapes() {
    "$root/scripts/shapes.py" "$@" >"$work/shapes.json"
    row "$*" "$work/shapes.json" "$work/shapes.topojson" build "$program" build "shapes=$work/shapes.json"
    if [ "$1" = lakes ]; then
        row "$*" "$work/shapes.json" "$work/out" "build, ring area" "$program" build --min-ring-area 0.001 "shapes=$work/shapes.json"
    fi
    row "$*" "$work/shapes.topojson" "$work/out" geo "$program" geo --object shapes "$work/shapes.topojson"
}

echo "| mesh | MB | command | seconds | MB/s | peak MB |"
echo "|---|---|---|---|---|---|"
measure "10^4" 12 16
measure "10^6" 124 16
measure "10^4, properties" 12 16 --properties
measure "10^6, properties" 124 16 --properties
measure_shapes roads 20000
measure_shapes points 100000
measure_shapes lakes 10000
measure_shapes lakes 10000 --decimals 15
measure_coast 0.00000575 0.00275
echo
for name in build "build, grid" "build, area" "build, share" "simplify, area" geo "geo, grid" stat; do
    for kind in "" ", properties"; do
        awk -F '\t' -v name="$name" -v kind="$kind" '
            $1 == "10^4" kind && $2 == name { small = $3 }
            $1 == "10^6" kind && $2 == name { great = $3 }
            END { printf "growth of %s%s: %.2f\n", name, kind, great / small }' "$work/rows"
    done
done
