#!/bin/sh
# Makes the release of the program that the gate (`.ci/run`) or scripts/prove.sh built of the tree's sources:
#
#     scripts/release.sh            writes release/mapchain and release/record
#     scripts/release.sh --check    status 0 where the release is the tree's, and 1 where it is older or isn't whole
#
# The record has the sum of the sources, that of the program, the prover's verdict on it, and the kit that it was proved with.
set -u
root=$(dirname "$(dirname "$(readlink -f "$0")")")
. "$root/scripts/program.sh"

case $# in
    0) ;;
    *)
        [ "$*" = --check ] || fail 2 "scripts/release.sh takes --check or no word"
        is_released || fail 1 "the release is older than the tree"
        is_whole || fail 1 "release/mapchain isn't the program whose sum release/record has"
        exit 0
        ;;
esac

is_program "$built" || fail 1 "no program was built here: run .ci/run or scripts/prove.sh first"
! is_older_than_sources "$built" || fail 1 "a source is newer than the program that was built here"
program=$(sum_of "$built")
verdict=$(sed -n "s/^$program //p" "$beside/verdict" 2>/dev/null)
[ -n "$verdict" ] || fail 1 "nothing here has the verdict on the program that was built: run scripts/prove.sh"
kit=$(rt version) || fail 127 "the toolchain's command 'rt' isn't on PATH"
mkdir -p "$beside" && cp "$built" "$released.new" && mv -f "$released.new" "$released" || exit
cat >"$record" <<END
sources $(sum_of_sources)
program $program
verdict $verdict
kit $kit
END
