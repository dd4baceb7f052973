#!/bin/bash
# Tells what the gate costs: processor seconds of each crate's proof, tests and must-fail edits, and the longest chain of
# proofs, each crate after those it stands on. It runs the gate and looks at the prover's processes once a second.
#
#     scripts/gate-cost.sh                  measures `rt ci --anew`, which proves everything from nothing
#     scripts/gate-cost.sh rt all check     measures another command, run at the top of the repository
#
# The command's own output goes to the file `gate.log` in the folder out/, its status is the script's. A process that lives
# for less than a second may be missed, so the last line has the whole sum, as the system counts it.
set -u
cd "$(dirname "$(readlink -f "$0")")/.." || exit 2
[ $# -gt 0 ] || set -- rt ci --anew
# (as in .ci/run)
: "${RT_JOBS:=$(scripts/lanes.sh)}"
export RT_JOBS
command -v "$1" >/dev/null || { echo "gate-cost: there is no command '$1' on PATH" >&2; exit 2; }
mkdir -p out
samples=$(mktemp) || exit 2
trap 'rm -f "$samples"' EXIT
trap 'exit 130' INT TERM
root=$PWD
ticks=$(getconf CLK_TCK)

# One line for each process of the prover: the second, the process, its crate, what it works on, and its ticks so far.
look() {
    local now=$SECONDS dir name words crate part stat
    for dir in /proc/[0-9]*; do
        { read -r name <"$dir/comm"; } 2>/dev/null || continue
        [ "$name" = rattle ] || continue
        words=$( (tr '\0' ' ' <"$dir/cmdline") 2>/dev/null) || continue
        crate=${words#*--crate-name }
        [ "$crate" != "$words" ] || continue
        crate=${crate%% *}
        case $(readlink "$dir/cwd" 2>/dev/null) in
            */rt-edit-*) part=edits ;;
            "$root"/*) part=proof ;;
            *) continue ;;
        esac
        case " $words " in
            *" --test "*) part=tests ;;
            *" --crate-checked "*) part=build ;;
        esac
        { read -r stat <"$dir/stat"; } 2>/dev/null || continue
        # The fields after the name in brackets: 12 and 13 are ticks in the program and in the system, 20 is the start.
        set -- ${stat##*) }
        echo "$now ${dir#/proc/}.${20} $crate $part $((${12} + ${13}))"
    done
}

SECONDS=0
"$@" >out/gate.log 2>&1 &
gate=$!
while kill -0 "$gate" 2>/dev/null; do
    look >>"$samples"
    sleep 1
done
wait "$gate"
status=$?
wall=$SECONDS

awk -v ticks="$ticks" -v wall="$wall" '
    function longest(crate,    below, each, i, n) {
        if (crate in chain) return chain[crate]
        n = split(stands[crate], each, " ")
        below = ""
        for (i = 1; i <= n; i++)
            if (each[i] in stands && (below == "" || longest(each[i]) > longest(below))) below = each[i]
        under[crate] = below
        return chain[crate] = (below == "" ? 0 : chain[below]) + took[crate]
    }
    FILENAME != "-" {
        if ($0 !~ /^#/ && $1 ~ /:$/) { crate = substr($1, 1, length($1) - 1); $1 = ""; stands[crate] = $0; order[++crates] = crate }
        next
    }
    {
        process = $2; key = $3 " " $4
        if ($5 > spent[process]) { sum[key] += $5 - spent[process]; spent[process] = $5 }
        if ($4 == "proof") { if (!($3 in first)) first[$3] = $1; took[$3] = $1 - first[$3] + 1 }
    }
    END {
        print "| Crate | Proof | Tests | Edits | Building | Proof, wall |"
        print "|---|---|---|---|---|---|"
        for (i = 1; i <= crates; i++) {
            crate = order[i]
            printf "| `%s` | %d | %d | %d | %d | %d |\n", crate, sum[crate " proof"] / ticks, sum[crate " tests"] / ticks,
                sum[crate " edits"] / ticks, sum[crate " build"] / ticks, took[crate]
            for (part in parts) delete parts[part]
            proof += sum[crate " proof"]; tests += sum[crate " tests"]; edits += sum[crate " edits"]; build += sum[crate " build"]
            if (longest(crate) > longest(last) || last == "") last = crate
        }
        printf "| all | %d | %d | %d | %d | |\n\n", proof / ticks, tests / ticks, edits / ticks, build / ticks
        path = ""
        for (crate = last; crate != ""; crate = under[crate]) path = crate " " took[crate] (path == "" ? "" : ", ") path
        printf "Longest chain of proofs: %d seconds: %s.\n", chain[last], path
        printf "In all: %d processor seconds seen, %d seconds by the clock.\n", (proof + tests + edits + build) / ticks, wall
    }' crates.txt - <"$samples"
times >"$samples"
awk 'NR == 2 { print "As the system counts it, with this script: " $1 " in programs and " $2 " in the system." }' "$samples"
exit "$status"
