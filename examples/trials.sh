#!/usr/bin/env bash
# Tries what is harder to take than a program that waits: a stack that has overflowed, a handler on a
# stack of its own, ten threads, a program whose file was deleted, one without symbols, and Rust. Each walk
# is compared with gdb's frames, up to where it ends; and each snapshot has to have what a walk over
# gdb's frames would ask for.
#
#   trials.sh UNWIND_CLI        wants out/ built
set -euo pipefail
cd "$(dirname "$0")"
tools=$PWD/../tools
export UNWIND_CLI=$1
out=$PWD/out
scratch=$(mktemp -d)
processes=
trap 'kill $processes 2> /dev/null; rm -rf "$scratch"' EXIT
ulimit -c unlimited

# Starts a program, waits until its first or another thread is in `pause`, and leaves its number in `started`.
start() {
    "$@" > /dev/null &
    started=$!
    processes="$processes $started"
    until grep -qs '^34 ' /proc/"$started"/task/*/syscall; do sleep 0.1; done
    sleep 0.5
}

# Takes a snapshot and gdb's frames; the options of `snapshot` come first.
take() {
    gdb -nx "${@:2}" -batch -ix "$tools/snapshot.py" -ex "snapshot $scratch/a.json $1" > "$scratch/log" 2>&1 \
        || { grep '^snapshot:' "$scratch/log"; return 1; }
    gdb -nx "${@:2}" -batch -x "$tools/frames.py" -ex frames 2> /dev/null | grep -E '^(frame|end)' > "$scratch/frames"
}

# Compares the walk of a snapshot with gdb's frames: `end` may come earlier, where a table isn't read yet.
compare() {
    "$UNWIND_CLI" walk < "$2" | grep '^frame' | grep -v ' ra=0x0 ' > "$scratch/walk"
    local frames walked
    frames=$(grep -c '^frame' "$scratch/frames")
    walked=$(wc -l < "$scratch/walk")
    diff "$scratch/walk" <(head -n "$walked" "$scratch/frames")
    echo "$1: $walked of gdb's $frames frames, the same; $(./covers.py "$2" "$scratch/frames")"
}

of_overflow() {
    (cd "$scratch" && "$out/overflow") 2> /dev/null || true
    local core
    core=$(ls "$scratch"/core*)
    gdb -nx "$out/overflow" "$core" -batch -ix "$tools/snapshot.py" -ex "snapshot $scratch/a.json" > /dev/null 2>&1
    gdb -nx "$out/overflow" "$core" -batch -ex 'set backtrace past-main on' -ex bt 2> /dev/null \
        | tac | sed '/^#0 /q' | tac | sed -nE 's/^#[0-9]+ +0x0*([0-9a-f]+) in .*/0x\1/p' > "$scratch/frames"
    "$UNWIND_CLI" walk < "$scratch/a.json" | grep -v ' ra=0x0 ' | sed -nE 's/^frame [0-9]+ ra=(\S+) .*/\1/p' \
        | diff - "$scratch/frames"
    echo "a stack that has overflowed: the same $(wc -l < "$scratch/frames") addresses as gdb's"
    rm "$core"
}

of_other_stack() {
    start "$out/other_stack"
    take '' -p "$started"
    compare 'a handler on another stack' "$scratch/a.json"
    gdb -nx -batch -p "$started" -ex "gcore $scratch/core" > /dev/null 2>&1
    take '' "$out/other_stack" "$scratch/core"
    compare 'a handler on another stack, from a core' "$scratch/a.json"
}

of_threads() {
    start "$out/ten_threads"
    gdb -nx -batch -p "$started" -ix "$tools/snapshot.py" -ex "snapshot $scratch/threads --threads" > /dev/null 2>&1
    local thread number
    for thread in /proc/"$started"/task/*; do
        number=$(basename "$thread")
        gdb -nx -batch -p "$started" -x "$tools/frames.py" -ex "python [thread.switch() for thread in
gdb.selected_inferior().threads() if thread.ptid[1] == $number]" -ex frames 2> /dev/null \
            | grep -E '^(frame|end)' > "$scratch/frames"
        "$tools/join.py" "$scratch/threads/thread-$number.json" > "$scratch/a.json"
        compare "the thread $(cat "$thread/comm")" "$scratch/a.json"
    done
}

of_files() {
    cp "$out/nested-gcc-O2" "$scratch/gone"
    start "$scratch/gone"
    gdb -nx -batch -p "$started" -x "$tools/frames.py" -ex frames 2> /dev/null | grep -E '^(frame|end)' > "$scratch/kept"
    rm "$scratch/gone"
    take '' -p "$started"
    mv "$scratch/kept" "$scratch/frames"
    compare 'a program whose file was deleted' "$scratch/a.json"
    strip -o "$scratch/stripped" "$out/nested-gcc-O2"
    start "$scratch/stripped"
    take '' -p "$started"
    compare 'a stripped program' "$scratch/a.json"
}

of_rust() {
    command -v rustc > /dev/null || return 0
    rustc -g -O -o "$scratch/boxes" boxes.rs
    start "$scratch/boxes"
    take '' -p "$started"
    compare 'a program in Rust' "$scratch/a.json"
}

of_marks() {
    start "$out/nested-gcc-O2"
    local level
    for level in 0 1 2; do
        gdb -nx -batch -p "$started" -ix "$tools/snapshot.py" -ex "frame $level" -ex "snapshot $scratch/a.json" > /dev/null 2>&1
        gdb -nx -batch -p "$started" -x "$tools/frames.py" -ex frames 2> /dev/null | grep '^frame' \
            | tail -n +$((level + 1)) | awk '{ $2 = NR - 1; print }' > "$scratch/frames"
        compare "from the frame $level" "$scratch/a.json"
    done
    take '--stack-bytes 64 --module nested-gcc-O2' -p "$started"
    echo "a front of 64 bytes: $("$UNWIND_CLI" walk < "$scratch/a.json" | tail -1)"
}

# A handler's frame is the innermost one, or after it the trampoline's call; the frame that the signal
# interrupted stands before its instruction, and its callers after their calls.
of_marks_at_a_signal() {
    start "$out/other_stack"
    local level marks= asked=()
    for level in 0 1 2 3 4 5 6; do
        asked+=(-ex "frame $level" -ex "snapshot $scratch/$level.json")
    done
    gdb -nx -batch -p "$started" -ix "$tools/snapshot.py" "${asked[@]}" > /dev/null 2>&1
    for level in 0 1 2 3 4 5 6; do
        marks+=$(grep -q '"interrupted": true' "$scratch/$level.json" && echo 'i ' || echo 'c ')
    done
    echo "marks at a signal, from frame 0: $marks"
    [ "$marks" = 'i i c i c c c ' ]
}

of_overflow
of_other_stack
of_threads
of_files
of_rust
of_marks
of_marks_at_a_signal
