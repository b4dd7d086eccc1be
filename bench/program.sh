#!/usr/bin/env bash
# Measures the program against the same work in plain Rust: instructions (callgrind) and peak memory.
#
#     bench/program.sh
#
# Wants valgrind, GNU time, cargo and python3, and the program as `rt run` left it in
# crates/unwind_cli/out. Where no network is at hand, REGISTRY names a folder with the sources of
# the crates serde_json and hex and what they stand on.

# shellcheck source-path=SCRIPTDIR source=common.sh
. "$(dirname "$0")/common.sh"

build_cargo plain
plain=$work/plain/target/release/plain

# COMMAND..: with the snapshot as its input.
on_input() {
    "$@" <"$work/input"
}

measure() {
    python3 "$here/snapshots.py" "$@" >"$work/input"
    printf '%-20s %12s bytes\n' "$*" "$(wc -c <"$work/input")"
    printf '    proved  %18s instructions  %9s kB\n' "$(on_input instructions "$proved" deliver)" \
        "$(on_input peak "$proved" deliver)"
    printf '    plain   %18s instructions  %9s kB, %9s kB with the text let go early\n' \
        "$(on_input instructions "$plain")" "$(on_input peak "$plain")" "$(on_input peak "$plain" early)"
}

measure row
measure region 20000000
measure regions 100000
measure modules 100000
measure resumes 100000

# A line of the report: a limit of one state less refuses what was stepped, and writes no lines.
measure frames 10000 10001
measure frames 10000 10000
