#!/usr/bin/env bash
# Runs the program on texts of 64 MiB, the most that it takes, and on small ones that ask for much
# work: its status, its last line, the processor time and the peak memory; and beside it the same of
# plain Rust (bench/plain), which knows one kind of frame alone and so leaves out those after the
# first seven.
#
#     bench/limits.sh [KIND..]        the kinds are those of bench/large.py
#
# Wants GNU time and python3, the program as `rt run` left it in crates/unwind_cli/out (or
# UNWIND_CLI=PROGRAM), and bench/plain as `cargo build --release` leaves it (or PLAIN=PROGRAM, which
# bench/program.sh says how to build).

# shellcheck source-path=SCRIPTDIR source=common.sh
. "$(dirname "$0")/common.sh"

plain=${PLAIN:-$here/plain/target/release/plain}

# The status, seconds of processor time, peak memory and last line of a run.
told() {
    local status=0
    env time -o "$work/time" -f '%U %S %M' "$@" <"$work/input" >"$work/output" || status=$?
    tail -1 "$work/time" | awk -v status="$status" -v line="$(tail -1 "$work/output" | cut -c1-44)" \
        '{ printf "%d  %7.2f s  %7.1f MB  %s\n", status, $1 + $2, $3 / 1024, line }'
}

[ $# -gt 0 ] || set -- spaces brackets string region regions modules resumes loop header lengths length expression circle
for kind in "$@"; do
    python3 "$here/large.py" "$kind" >"$work/input"
    printf '%-11s %10d bytes   proved %s\n' "$kind" "$(wc -c <"$work/input")" "$(told "$proved" deliver)"
    case $kind in
    loop | header | lengths | length | expression | circle) ;;
    *) [ ! -x "$plain" ] || printf '%-30s plain  %s\n' '' "$(told "$plain")" ;;
    esac
done
