#!/usr/bin/env bash
# Measures a walk by its length: instructions (callgrind) for each walked frame, and peak memory.
#
#     bench/walk.sh
#
# Wants valgrind, GNU time and python3, and the program as `rt run` left it in
# crates/unwind_cli/out. The stack is that of calls of one function that pushes RBX, with addresses
# and registers of few digits. What a frame costs is the difference of two lengths, so that the start
# of the process isn't in it: from the text of the snapshot to the report, and without its report
# line. A limit of one state less refuses what was walked, and writes no lines.

# shellcheck source-path=SCRIPTDIR source=common.sh
. "$(dirname "$0")/common.sh"

# FRAMES LIMIT: what a walk of so many states costs whole.
measure() {
    python3 "$here/snapshots.py" calls "$(($1 - 1))" "$2" >"$work/input"
    instructions "$proved" walk <"$work/input"
}

printf '%8s %14s %8s %14s %8s %9s\n' frames walked a-frame refused a-frame peak-kB
base=$(measure 2 2)
bare=$(measure 2 1)
for frames in 1000 10000 100000; do
    refused=$(measure "$frames" "$((frames - 1))")
    whole=$(measure "$frames" "$frames")
    printf '%8d %14d %8d %14d %8d %9d\n' "$frames" "$whole" "$(((whole - base) / (frames - 2)))" \
        "$refused" "$(((refused - bare) / (frames - 2)))" "$(peak "$proved" walk <"$work/input")"
done

# A large limit costs a short walk nothing: it gets room for no more states than the stack has words, and one.
python3 "$here/snapshots.py" calls 1 2 >"$work/input"
printf 'limit 2        %s instructions, %s kB\n' "$(instructions "$proved" walk <"$work/input")" \
    "$(peak "$proved" walk <"$work/input")"
python3 "$here/snapshots.py" calls 1 1048576 >"$work/input"
printf 'limit 1048576  %s instructions, %s kB\n' "$(instructions "$proved" walk <"$work/input")" \
    "$(peak "$proved" walk <"$work/input")"
