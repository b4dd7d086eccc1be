#!/usr/bin/env bash
# Prints how long the backtraces of all threads of a core or a process take, by backtrace.sh, gdb and
# eu-stack, and whether their frames are the same; and of a core the same of core_stacks, without names and with. Where gdb
# has other frames of a core, it is asked once more with the libraries that the core's note NT_FILE names
# (mapped_libraries.py): of a core that was cut off it may lack their list.
#
#   cores.sh PROGRAM CORE
#   cores.sh PID                   a process whose threads wait, or that is stopped (kill -STOP)
#
# Seconds are those of the clock and, after the comma, of the processor. Each runs once before, so that
# files are in memory. SECONDS_MOST (120) is how long each may take. Wants gdb, eu-stack (Debian: elfutils) and
# the built programs (UNWIND_CLI, crates/unwind_cli/out/unwind_cli; for processes BACKTRACE too; CORE_STACKS).
set -uo pipefail
case $# in
    1) of_gdb=(-p "$1") of_eu=(-p "$1") ;;
    2) of_gdb=("$1" "$2") of_eu=(--core "$2" -e "$1") ;;
    *) echo 'usage: cores.sh PROGRAM CORE | PID' >&2; exit 2 ;;
esac
here=$(cd "$(dirname "$0")" && pwd)
tools=$here/../tools
most=${SECONDS_MOST:-120}
core_stacks=${CORE_STACKS:-$here/../crates/core_stacks/out/core_stacks}
scratch=$(mktemp -d)
trap 'rm -rf "$scratch"' EXIT
TIMEFORMAT='%R %U %S'

# Runs a command twice, the second time with its seconds in NAME.time, and leaves what it prints in NAME.
timed() {
    local name=$1
    shift
    timeout "$most" "$@" > /dev/null 2>&1 < /dev/null
    { time timeout "$most" "$@" > "$scratch/$name" 2> "$scratch/$name.errors" < /dev/null; } 2> "$scratch/$name.time"
}

# A line of the table: a name, its seconds, and what is said of its frames.
line() {
    awk -v name="$1" -v said="$2" '{ printf "%-11s %7.3f s, %7.3f s  %s\n", name, $1, $2 + $3, said }' "$scratch/$1.time"
}

# FILE WORDS..: the frames of all threads by gdb, with these words more.
frames_of_gdb() {
    local file=$scratch/$1
    shift
    timeout "$most" gdb -nx -batch "$@" -x "$tools/frames.py" -ex 'thread apply all frames' "${of_gdb[@]}" \
        > "$file" 2> /dev/null < /dev/null
}

# What is said of core_stacks' frames, or what it says where it refuses the core.
of_core_stacks() {
    if grep -q '^thread ' "$scratch/$1"; then
        python3 "$here/core_frames.py" "$scratch/$1" "$scratch/frames"
    else
        head -1 "$scratch/$1"
    fi
}

past=(-ex 'set backtrace past-main on' -ex 'set backtrace past-entry on')
timed ours "$tools/backtrace.sh" "$@" --threads
timed gdb gdb -nx -batch "${past[@]}" -ex 'thread apply all bt' "${of_gdb[@]}"
timed eu-stack eu-stack -n 0 "${of_eu[@]}"
frames_of_gdb frames
line ours "$(grep -c '^Thread ' "$scratch/ours") threads, $(grep -c '^#' "$scratch/ours") lines"
said=$(python3 "$here/core_frames.py" "$scratch/ours" "$scratch/frames")
gdb_status=$?
line gdb "$said"
if [ $# -eq 2 ] && [ $gdb_status -ne 0 ]; then
    frames_of_gdb told -x "$here/mapped_libraries.py"
    echo "gdb, with the files of NT_FILE: $(python3 "$here/core_frames.py" "$scratch/ours" "$scratch/told")"
fi
if [ $# -eq 2 ] && [ -x "$core_stacks" ]; then
    timed core_stacks "$core_stacks" "$2"
    line core_stacks "$(of_core_stacks core_stacks)"
    timed named "$core_stacks" --names "$2"
    line named "with names: $(of_core_stacks named)"
fi
line eu-stack "$(python3 "$here/core_frames.py" "$scratch/ours" "$scratch/eu-stack")"
[ $gdb_status -eq 0 ] && python3 "$here/core_frames.py" "$scratch/ours" "$scratch/eu-stack" > /dev/null
