#!/bin/sh
# Proves and builds the program from nothing, and compares it with the released one, byte for byte:
#
#     scripts/prove.sh
#
# The status is 0 where they are the same, or the release was made of other sources, which is said. It is 1 where they
# differ, 127 where the toolchain's command `rt` isn't there, and 125 where the program can't be proved or built.
set -u
root=$(dirname "$(dirname "$(readlink -f "$0")")")
. "$root/scripts/program.sh"

prove_and_build --anew
if ! is_released; then
    echo "mapchain: the released program was made of other sources than these, so it isn't compared" >&2
elif is_whole && cmp "$built" "$released"; then
    echo "mapchain: it is the released program, byte for byte" >&2
else
    fail 1 "it isn't the released program, or release/record has another"
fi
