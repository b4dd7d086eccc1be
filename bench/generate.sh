#!/usr/bin/env bash
# Measures `generate` by its count: instructions (callgrind) for each function, and peak memory.
#
#     bench/generate.sh
#
# Wants valgrind, GNU time and python3, and the program as `rt run` left it in
# crates/unwind_cli/out. A run makes a chain of so many functions with its tables and its stack,
# indexes its frame table, delivers an exception over it and sums that up. What a function costs is
# the difference of two counts, so that the start of the process isn't in it. What is summed up is
# compared with tools/generated_stack.py.

# shellcheck source-path=SCRIPTDIR source=common.sh
. "$(dirname "$0")/common.sh"

seed=18446744073709551615

base=$(instructions "$proved" generate 1 "$seed")
printf '%9s %14s %11s %9s %10s\n' functions instructions a-function peak-kB probes
for count in 1000 10000 100000; do
    whole=$(instructions "$proved" generate "$count" "$seed")
    python3 "$top/tools/generated_stack.py" generate "$count" "$seed" >"$work/due"
    head -4 "$work/told" | cmp - "$work/due"
    printf '%9d %14d %11d %9d %10d\n' "$count" "$whole" "$(((whole - base) / (count - 1)))" \
        "$(peak "$proved" generate "$count" "$seed")" "$(sed -n 's/^probes //p' "$work/told")"
done
