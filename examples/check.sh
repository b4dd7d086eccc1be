#!/usr/bin/env bash
# Compares walks of a program in out/ with gdb's backtraces: once of the live process, and once of its
# core. The snapshots are taken by the commands of ../docs/SNAPSHOTS.md.
#
#   check.sh take NAME                  snapshots and backtraces, into out/check
#   check.sh compare NAME UNWIND_CLI    their walks, against the backtraces
#
# The program starts as from any shell, with its environment and where the system likes.
set -euo pipefail
cd "$(dirname "$0")/.."
folder=examples/out/check

begin() {
    "examples/out/$1" &
    process=$!
    trap 'kill "$process"' EXIT
    until grep -q '^34 ' "/proc/$process/syscall"; do sleep 0.1; done
}

# What gdb says: the addresses of `bt`, and the registers of each of its frames.
backtrace() {
    gdb "${@:2}" -batch -x tools/frames.py -ex 'set backtrace past-main on' -ex 'set backtrace past-entry on' \
        -ex bt -ex frames > "$1.gdb"
}

take() {
    local live="$folder/$1-live" core="$folder/$1-core"
    mkdir -p "$folder"
    begin "$1"
    gdb -p "$process" -batch -ix tools/snapshot.py -ex "snapshot $live.json"
    backtrace "$live" -p "$process"
    gdb -p "$process" -batch -ex "gcore $core" > "$core.log"
    gdb "examples/out/$1" "$core" -batch -ix tools/snapshot.py -ex "snapshot $core.json"
    backtrace "$core" "examples/out/$1" "$core"
}

# The state after the outermost function, which has no return address, is no frame of gdb's.
without_outermost() {
    grep -v '^frame [0-9]* ra=0x0 ' "$1"
}

# `bt`, from its #0 on: as gdb reads a core it prints another one.
lines_of_bt() {
    tac "$1" | sed '/^#0 /q' | tac
}

addresses_of_bt() {
    lines_of_bt "$1" | sed -nE 's/^#[0-9]+ +0x0*([0-9a-f]+) in .*/0x\1/p'
}

# The addresses of a walk, but for the frames of signals, of which `bt` prints none.
addresses_of_walk() {
    local signals
    signals=$(lines_of_bt "$1.gdb" | sed -nE 's/^#([0-9]+) +<signal handler called>.*/\1/p' | paste -sd '|')
    without_outermost "$1.walk" | grep -vE "^frame (${signals:-none}) " | sed -nE 's/^frame [0-9]+ ra=(\S+) .*/\1/p'
}

compare_one() {
    "$2" walk < "$1.json" > "$1.walk"
    diff <(without_outermost "$1.walk") <(grep -E '^(frame|end)' "$1.gdb")
    diff <(addresses_of_walk "$1") <(addresses_of_bt "$1.gdb")
    echo "$(basename "$1"): the same $(without_outermost "$1.walk" | grep -c '^frame ') frames"
}

compare() {
    compare_one "$folder/$1-live" "$2"
    compare_one "$folder/$1-core" "$2"
}

"$@"
