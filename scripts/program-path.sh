#!/bin/sh
# Tells the path of the program that ./mapchain runs, which is proved and built first where it has to be.
root=$(dirname "$(dirname "$(readlink -f "$0")")")
. "$root/scripts/program.sh"

choose_program
echo "$program"
