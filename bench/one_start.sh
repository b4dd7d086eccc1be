#!/usr/bin/env bash
# Measures walks of one start by snapshots of real processes (instructions, by callgrind): reading one, `unwind_cli walk`,
# `unwind_cli deliver` and `backtrace` over it, and each of these by what reading costs.
#
#     bench/one_start.sh SNAPSHOT..
#
# Reading is `backtrace` with a limit of no frame, which prepares nothing. A delivery goes to the end of the stack: the
# snapshot gets an exception of no handler where it has none. Wants the programs as `rt run` leaves them in crates/*/out
# (UNWIND_CLI and BACKTRACE where they lie elsewhere), valgrind and Python.

# shellcheck source-path=SCRIPTDIR source=common.sh
. "$(dirname "$0")/common.sh"
backtrace=${BACKTRACE:-$top/crates/backtrace/out/backtrace}

# SNAPSHOT MEMBERS: the snapshot with other members, on standard output.
changed() {
    python3 -c 'import json, sys; print(json.dumps(json.load(open(sys.argv[1])) | json.loads(sys.argv[2])))' "$@"
}

# COMMAND..: the instructions of a run on $work/snapshot.
run_on() { instructions "$@" <"$work/snapshot"; }

printf '%-24s %6s %12s %12s %6s %12s %6s %12s %6s\n' \
    snapshot frames reading walk ratio deliver ratio backtrace ratio
for file in "$@"; do
    changed "$file" '{"limit": 0}' >"$work/snapshot"
    reading=$(run_on "$backtrace")
    changed "$file" '{"exception": "0x1000", "class": "0x0", "resumes": []}' >"$work/snapshot"
    walked=$(run_on "$proved" walk)
    frames=$(grep -c '^frame' "$work/told")
    delivered=$(run_on "$proved" deliver)
    traced=$(run_on "$backtrace")
    printf '%-24s %6d %12d %12d %6s %12d %6s %12d %6s\n' "$(basename "$file")" "$frames" "$reading" \
        "$walked" "$(ratio "$walked" "$reading")" "$delivered" "$(ratio "$delivered" "$reading")" \
        "$traced" "$(ratio "$traced" "$reading")"
done
