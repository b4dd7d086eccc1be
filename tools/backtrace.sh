#!/usr/bin/env bash
# Prints the backtrace of a process, a core or a stored snapshot.
#
#   backtrace.sh PID [--threads] [--frame-pointers]
#   backtrace.sh PROGRAM CORE [--threads] [--names]
#   backtrace.sh FILE [--strict]          a snapshot, or samples (snapshot_backtrace.py)
#
# No debugger is asked. process_backtrace.py stops the process and reads its stacks, core_backtrace.py reads a core; the
# built programs find the frames, and the frames are named. With --names one built program, core_stacks, does all of it in
# milliseconds: it reads the core and the files that the core names, not PROGRAM, and names functions by the symbols of
# these files, without lines of the source. BACKTRACE, UNWIND_CLI and CORE_STACKS name the built programs, where they are
# neither in the out/ of their crates nor on the PATH. A link to this script may lie in a folder of the PATH.
set -uo pipefail
self=${BASH_SOURCE[0]}
if [ -L "$self" ]; then self=$(readlink -f "$self"); fi
tools=${self%/*}
[ "$tools" != "$self" ] || tools=.

usage() {
    echo 'usage: backtrace.sh PID [--threads] [--frame-pointers] | PROGRAM CORE [--threads] [--names] | FILE [--strict]' >&2
    exit 2
}

# A python3 on the PATH may be a script that takes longer to start than all the rest; the system's isn't.
python=/usr/bin/python3
[ -x "$python" ] || python=python3

# Prints the backtrace of a core's first thread, or with `all` as the second word those of all its threads, by what
# core_stacks says of it.
named_by_symbols() {
    local program=${CORE_STACKS:-$tools/../crates/core_stacks/out/core_stacks}
    [ -n "${CORE_STACKS:-}" ] || [ -x "$program" ] || program=core_stacks
    if ! command -v "$program" > /dev/null; then
        echo "backtrace: $program isn't built: run \`rt run\` in crates/core_stacks" >&2
        exit 1
    fi
    "$program" --names "$1" | awk -v which="$2" '
        $1 == "thread" {
            threads++
            if (which == "all") print (threads > 1 ? "\n" : "") "Thread " threads ":"
            next
        }
        threads == 0 { print > "/dev/stderr"; next }
        (threads > 1 && which != "all") || $0 == "end" || ($1 == "frame" && $2 > 0 && $3 == "ra=0x0") { next }
        $1 != "frame" { print; next }
        { print "#" $2 " " substr($3, 4) " in " (NF == 13 ? $11 " from " $13 : NF == 12 ? $12 : "??") }'
    exit "${PIPESTATUS[0]}"
}

options=()
while [ $# -gt 1 ] && [[ ${*: -1} =~ ^--(threads|frame-pointers|strict|names)$ ]]; do
    options+=("${*: -1}")
    set -- "${@:1:$#-1}"
done
wanted=" ${options[*]} "
if [[ $wanted == *' --names '* ]]; then
    [[ $# -eq 2 && $wanted != *' --strict '* && $wanted != *' --frame-pointers '* ]] || usage
    which=first
    [[ $wanted != *' --threads '* ]] || which=all
    named_by_symbols "$2" "$which"
fi
case $#:${1:-}:${options[*]} in
    1:*[!0-9]*:*threads* | 1:*[!0-9]*:*frame-pointers* | 1::* | 2:*frame-pointers* | 2:*strict* | 1:*[0-9]:*strict*) usage ;;
    1:*[!0-9]*:*)
        [ -f "$1" ] || usage
        exec "$python" -E -S "$tools/snapshot_backtrace.py" "$1" "${options[@]}" ;;
    1:*) exec "$python" -E -S "$tools/process_backtrace.py" "$1" "${options[@]}" ;;
    2:*) exec "$python" -E -S "$tools/core_backtrace.py" "$1" "$2" "${options[@]}" ;;
    *) usage ;;
esac
