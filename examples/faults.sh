#!/usr/bin/env bash
# Tries what tools/backtrace.sh, tools/profile.sh and tools/names.py must refuse, and prints what each says: its last line on
# standard error and the status. Every refusal has to have a line and a status that isn't 0, and print no frame. What only lacks
# a symboliser has to print its frames, with a line that says so.
#
#   faults.sh        wants out/ built, and the programs built (BACKTRACE, UNWIND_CLI)
set -uo pipefail
cd "$(dirname "$0")"
tools=$PWD/../tools
programs=$PWD/out
stored=$PWD/../crates/backtrace/stdin
scratch=$(mktemp -d)
processes=
trap 'kill $processes 2> /dev/null; rm -rf "$scratch"' EXIT
failed=0

# Starts a program, and leaves its number in `started`.
start() {
    "$@" > /dev/null 2>&1 &
    started=$!
    processes="$processes $started"
    sleep 0.3
}

# WANTED WHAT WORDS..: runs the words, and looks at the status and at what is said.
try() {
    local wanted=$1 what=$2 status frames
    shift 2
    timeout 60 "$@" > "$scratch/said" 2> "$scratch/errors" < /dev/null
    status=$?
    frames=$(grep -c '^#' "$scratch/said")
    echo "$what: $(tail -1 "$scratch/errors" | sed "s#$scratch/##g; s#$programs/##g") [status $status; $frames frames]"
    case $wanted in
        refused) [ "$status" != 0 ] && [ "$frames" = 0 ] && [ -s "$scratch/errors" ] || failed=1 ;;
        printed) [ "$status" = 0 ] && [ "$frames" != 0 ] || failed=1 ;;
    esac
}

of_processes() {
    try refused 'no such process' "$tools/backtrace.sh" 4194305
    try refused 'a thread of the kernel' "$tools/backtrace.sh" 2
    python3 -c 'import os, time; os.fork() or os._exit(0); time.sleep(60)' &
    processes="$processes $!"
    until grep -qs '^State:.Z' "/proc/$(pgrep -P $!)/status"; do sleep 0.1; done
    try refused 'a process that has ended' "$tools/backtrace.sh" "$(pgrep -P $!)"
    start gdb -nx -batch -p "$live" -ex 'shell sleep 5'
    sleep 1
    try refused 'a process that is traced already' "$tools/backtrace.sh" "$live"
    kill "$started" && wait "$started" 2> /dev/null
    if [ "$(id -u)" = 0 ]; then
        try refused "another user's process" setpriv --reuid=65534 --clear-groups "$tools/backtrace.sh" "$live"
    fi
    printf 'void _start(void) { for (;;) { int r = 29; __asm__ volatile("int $0x80" : "+a"(r)); } }\n' > "$scratch/small.c"
    if gcc -m32 -nostdlib -static -fno-pic -o "$scratch/small" "$scratch/small.c" 2> /dev/null && start "$scratch/small"; then
        try refused 'a process of 32 bits' "$tools/backtrace.sh" "$started"
    fi
    printf '#include <unistd.h>\nint main(void) { if (vfork() == 0) { sleep(60); _exit(0); } }\n' > "$scratch/waits.c"
    gcc -o "$scratch/waits" "$scratch/waits.c" && start "$scratch/waits"
    try refused 'a process that waits in the kernel' "$tools/backtrace.sh" "$started"
    processes="$processes $(pgrep -P "$started")"
    cp "$programs/nested-gcc-O2" "$scratch/gone"
    start "$scratch/gone"
    rm "$scratch/gone"
    try printed "a process whose program's file is gone" "$tools/backtrace.sh" "$started"
}

# CORE BYTES: where so many bytes above the first thread's stack pointer stand in the core.
place_above_pointer() {
    PYTHONPATH=$tools python3 - "$@" << 'END'
import sys
from core_image import Core
core = Core(open(sys.argv[1], "rb"))
pointer = core.threads()[0].rsp
memory = core.memory_at(pointer)
print(memory.offset + pointer - memory.address + int(sys.argv[2]))
END
}

# CORE OFFSET BYTE: the core with another byte there.
with_byte() {
    cp "$1" "$scratch/changed"
    printf '%b' "$3" | dd of="$scratch/changed" bs=1 seek="$2" conv=notrunc status=none
}

# Cores that lack something, and programs that aren't theirs.
of_cores() {
    local program=$programs/nested-gcc-O2
    gdb -nx -batch -p "$live" -ex "gcore $scratch/core" > /dev/null 2>&1
    : > "$scratch/empty"
    head -c 5000 /dev/urandom > "$scratch/junk"
    head -c 40 "$scratch/core" > "$scratch/cut-header"
    head -c 3000 "$scratch/core" > "$scratch/cut-notes"
    try refused 'a core that is not there' "$tools/backtrace.sh" "$program" "$scratch/none"
    try refused 'a core that is a folder' "$tools/backtrace.sh" "$program" "$scratch"
    try refused 'an empty core' "$tools/backtrace.sh" "$program" "$scratch/empty"
    try refused 'a core of random bytes' "$tools/backtrace.sh" "$program" "$scratch/junk"
    try refused 'a core that was cut off in its header' "$tools/backtrace.sh" "$program" "$scratch/cut-header"
    try refused 'a core that was cut off before its notes' "$tools/backtrace.sh" "$program" "$scratch/cut-notes"
    try refused 'a core and its program in the other order' "$tools/backtrace.sh" "$scratch/core" "$program"
    try refused 'a program that is not there' "$tools/backtrace.sh" "$scratch/none" "$scratch/core"
    try refused 'an empty program' "$tools/backtrace.sh" "$scratch/empty" "$scratch/core"
    try refused 'a program of random bytes' "$tools/backtrace.sh" "$scratch/junk" "$scratch/core"
    try refused 'a program that was cut off' "$tools/backtrace.sh" "$scratch/cut-header" "$scratch/core"
    try refused 'another program' "$tools/backtrace.sh" "$programs/frame_pointer-gcc-O2" "$scratch/core"
    with_byte "$scratch/core" 4 '\x01'
    try refused 'a core of 32 bits' "$tools/backtrace.sh" "$program" "$scratch/changed"
    with_byte "$scratch/core" 18 '\xb7'
    try refused 'a core of another machine' "$tools/backtrace.sh" "$program" "$scratch/changed"
    try printed 'a core with its program' "$tools/backtrace.sh" "$program" "$scratch/core"
    cut_cores
}

# Cores by the system, which has the notes before the memory, cut off in memory. Whatever frames there are have to be printed.
cut_cores() {
    local fails=$scratch/faults core size
    gcc -g -O0 -o "$fails" faults.c
    mkdir "$scratch/left"
    (cd "$scratch/left" && ulimit -c unlimited && exec "$fails" abort) > /dev/null 2>&1
    core=$(find "$scratch/left" -type f | head -1)
    [ -n "$core" ] || { echo 'the system writes no core here'; return; }
    for size in -128 0 64 640; do
        head -c "$(place_above_pointer "$core" "$size")" "$core" > "$scratch/cut"
        try printed "a core that was cut off $size bytes above its stack pointer" "$tools/backtrace.sh" "$fails" "$scratch/cut"
        tail -1 "$scratch/said"
    done
}

# What is built, and what is installed: `few` has the programs that the tools need and no others.
of_programs() {
    mkdir "$scratch/few"
    local name
    for name in bash env python3 readlink dirname sed grep tail rm mktemp cat; do
        ln -s "$(command -v "$name")" "$scratch/few/$name"
    done
    ln -sf /usr/bin/python3 "$scratch/few/python3"
    printf '#!/bin/sh\nexit 9\n' > "$scratch/fails"
    chmod +x "$scratch/fails"
    try refused 'nothing is built' env BACKTRACE=/none UNWIND_CLI=/none "$tools/backtrace.sh" "$live"
    try refused 'of a core, nothing is built' env BACKTRACE=/none UNWIND_CLI=/none "$tools/backtrace.sh" "$programs/nested-gcc-O2" "$scratch/core"
    try refused 'the program fails' env BACKTRACE="$scratch/fails" UNWIND_CLI=/none "$tools/backtrace.sh" "$live"
    try refused 'of a core, the program fails' env BACKTRACE="$scratch/fails" UNWIND_CLI=/none "$tools/backtrace.sh" "$programs/nested-gcc-O2" "$scratch/core"
    try printed 'no symboliser' env PATH="$scratch/few" "$tools/backtrace.sh" "$live"
    try printed 'of a core, no symboliser' env PATH="$scratch/few" "$tools/backtrace.sh" "$programs/nested-gcc-O2" "$scratch/core"
    try printed 'no gdb' env PATH="$scratch/few" "$tools/backtrace.sh" "$live" --threads
    try refused 'a profile of no process' "$tools/profile.sh" 4194305 1
    try refused 'a profile, nothing is built' env UNWIND_CLI=/none "$tools/profile.sh" "$live" 1
    try refused 'a profile, the program fails' env UNWIND_CLI="$scratch/fails" "$tools/profile.sh" "$live" 1
}

of_words() {
    try refused 'no words' "$tools/backtrace.sh"
    try refused 'no number' "$tools/backtrace.sh" nested
    try refused 'too many words' "$tools/backtrace.sh" 1 2 3
    try refused 'a snapshot that is not there' "$tools/names.py" - "$scratch/none"
    try refused 'a snapshot of random bytes' "$tools/names.py" - "$scratch/junk"
    try refused 'a snapshot without modules' "$tools/names.py" - <(echo '{}')
    try refused 'joining what is no snapshot' "$tools/join.py" "$scratch/junk"
    head -c 500 "$stored" > "$scratch/cut"
    try refused 'a stored snapshot that was cut off' "$tools/backtrace.sh" "$scratch/cut"
    try refused 'an empty one' "$tools/backtrace.sh" "$scratch/empty"
    try refused 'one of random bytes' "$tools/backtrace.sh" "$scratch/junk"
    changed 'one that begins with a byte order mark' $'1s/^/\xef\xbb\xbf/'
    changed 'one with a word after it' '48s/}/} more/'
    changed 'one with a faulty module' 's/"eh_frame"/"ehframe"/'
    changed 'one with a kind in capitals' 's/"elf"/"ELF"/'
    changed 'one without a counter' 's/"rip"/"rpi"/'
    changed 'one with a letter for a digit' 's/"0x/"0y/'
    changed 'one with a limit of 0' 's/"limit": [0-9]*/"limit": 0/'
    changed 'one with a limit of 100.0' 's/"limit": [0-9]*/"limit": 100.0/'
    changed 'one with a member that was misspelt' 's/"interrupted"/"interupted"/' --strict
    # shellcheck disable=SC2016
    try refused 'the same by check_schema.py' bash -c 'exec "$0" "$1" >&2' "$tools/check_schema.py" "$scratch/altered"
}

# WHAT CHANGE OPTIONS..: the stored snapshot, changed.
changed() {
    sed "$2" "$stored" > "$scratch/altered"
    try refused "$1" "$tools/backtrace.sh" "$scratch/altered" "${@:3}"
}

# What the built program says of its two ends and of its memory, and where it is found.
of_built() {
    local backtrace=${BACKTRACE:-../crates/backtrace/out/backtrace}
    [ -x "$backtrace" ] || backtrace=$(command -v backtrace)
    { cat "$stored"; head -c 20000000 /dev/zero | tr '\0' ' '; } > "$scratch/long"
    # shellcheck disable=SC2016
    {
        try refused 'its input is closed' bash -c 'exec "$0" <&-' "$backtrace"
        try refused 'there is no room for its report' bash -c 'exec "$0" < "$1" > /dev/full' "$backtrace" "$stored"
        try refused 'it may not have the memory' bash -c 'ulimit -v 12000; exec "$0" < "$1"' "$backtrace" "$scratch/long"
        try refused 'its text is too long' bash -c 'head -c 70000000 /dev/zero | "$0" >&2' "$backtrace"
    }
    mkdir "$scratch/found"
    cp "$backtrace" "$scratch/found/backtrace"
    cp -r "$tools" "$scratch/tools"
    try printed 'the program is found on the PATH' env -u BACKTRACE PATH="$scratch/found:$PATH" "$scratch/tools/backtrace.sh" "$live"
}

start "$programs/nested-gcc-O2"
live=$started
of_processes
of_cores
of_programs
of_words
of_built
exit "$failed"
