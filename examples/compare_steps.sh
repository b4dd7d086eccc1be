#!/usr/bin/env bash
# Compares the walk of each snapshot in out/NAME.steps with gdb's frames beside it.
#
#   compare_steps.sh NAME UNWIND_CLI
set -euo pipefail
cd "$(dirname "$0")"

compared=0
for snapshot in "out/$1.steps"/*.json; do
    "$2" walk < "$snapshot" | diff - "${snapshot%.json}.frames"
    compared=$((compared + 1))
done
echo "$1: the same at $compared instructions"
