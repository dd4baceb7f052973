#!/bin/sh
# Measures the program beside the plain one of scripts/plain/plain.rs, which it compiles, and prints for each command the seconds of the
# fastest run and the greatest peak of memory of both, and the ratios, the program's over the plain one's:
#
#     scripts/plain/benchmark.sh                    the program of ./mapchain, which is proved and built first where it has to be
#     scripts/plain/benchmark.sh path/to/mapchain   another program with the same commands
#     RUNS=9 SIZE=6 scripts/plain/benchmark.sh      the fastest of nine runs each, instead of five, at 10^6 positions instead of 10^5
#
# The files are those of scripts/benchmark.sh: a mesh with properties, a coast, roads, points, lakes and houses, which are many small features. The two take turns, so a busy
# machine slows both. Their outputs and reports are compared too, and it ends where they differ. A peak is never less than some 14 MB,
# which is that of the script that measures.
set -eu

here=$(dirname "$(readlink -f "$0")")
scripts=$here/..
program=${1:-}
runs=${RUNS:-5}
size=${SIZE:-5}
work=$(mktemp -d)
trap 'rm -rf "$work"' EXIT
trap 'exit 130' INT TERM

if [ -z "$program" ]; then
    program=$("$scripts/program-path.sh") || exit
fi
rustc --edition 2021 -O -C target-cpu=x86-64-v2 -C panic=abort -o "$work/plain" "$here/plain.rs"

# row FILE INPUT OUTPUT NAME WORD..: runs both with these words, in turns, and prints the row.
row() {
    file=$1 input=$2 output=$3 name=$4
    shift 4
    "$program" "$@" >"$output" 2>"$work/report"
    "$work/plain" "$@" >"$work/plain.out" 2>"$work/plain.report"
    cmp "$output" "$work/plain.out"
    cmp "$work/report" "$work/plain.report"
    : >"$work/times"
    for _ in $(seq "$runs"); do
        one=$("$scripts/timed.py" 1 "$work/out" "$program" "$@")
        other=$("$scripts/timed.py" 1 "$work/out" "$work/plain" "$@")
        echo "$one $other" >>"$work/times"
    done
    awk -v file="$file" -v name="$name" -v size="$(wc -c <"$input")" '
        NR == 1 || $1 < a { a = $1 }
        $2 > b { b = $2 }
        NR == 1 || $3 < c { c = $3 }
        $4 > d { d = $4 }
        END { printf "| %s | %.1f | %s | %.3f | %.3f | %.2f | %.0f | %.0f | %.2f |\n", file, size / 1e6, name, a, c, a / c, b, d, b / d }
    ' "$work/times"
}

# measure FILE AREA: all rows of the layer of the file.
measure() {
    file=$1 layer=$work/layer.json plain=$work/plain.topojson grid=$work/grid.topojson
    row "$file" "$layer" "$plain" build build "layer=$layer"
    row "$file" "$layer" "$grid" "build, grid" build --grid 1000000 "layer=$layer"
    row "$file" "$layer" "$work/reduced" "build, area" build --min-area "$2" "layer=$layer"
    row "$file" "$plain" "$work/reduced" simplify simplify --min-area "$2" "$plain"
    row "$file" "$plain" "$work/features" geo geo --object layer "$plain"
    row "$file" "$grid" "$work/features" "geo, grid" geo --object layer "$grid"
    row "$file" "$plain" "$work/summary" stat stat "$plain"
}

echo "| file | MB | command | seconds | plain | ratio | peak MB | plain | ratio |"
echo "|---|---|---|---|---|---|---|---|---|"
if [ "$size" = 6 ]; then
    cells=124 roads=20000 points=1000000 lakes=10000 houses=100000
else
    cells=40 roads=2000 points=100000 lakes=1000 houses=10000
fi
area=$(awk "BEGIN { side = 160 / ($cells * 16); printf \"%.14f\", side * side / 16 }")
"$scripts/mesh.py" "$cells" 16 --properties >"$work/layer.json"
measure mesh "$area"
"$scripts/coast.py" "$size" >"$work/layer.json"
measure coast "$(if [ "$size" = 6 ]; then echo 0.00000575; else echo 0.0002; fi)"
"$scripts/shapes.py" roads "$roads" >"$work/layer.json"
measure roads 0.000001
"$scripts/shapes.py" points "$points" >"$work/layer.json"
measure points 0.000001
"$scripts/shapes.py" lakes "$lakes" >"$work/layer.json"
measure lakes 0.000001
"$scripts/shapes.py" houses "$houses" >"$work/layer.json"
measure houses 0.000001
"$scripts/shapes.py" lakes "$lakes" --decimals 15 >"$work/layer.json"
measure "lakes, 15 places" 0.000001
