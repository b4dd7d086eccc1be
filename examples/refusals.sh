#!/usr/bin/env bash
# Tries what tools/snapshot.py must refuse, and prints what it says: one line each, the status, and the
# files that are left. Every refusal has to have status 1 and leave no file. What only looks alike has to
# succeed: a program without symbols, without .eh_frame or without its file, and a core with its program.
#
#   refusals.sh        wants out/ built
set -uo pipefail
cd "$(dirname "$0")"
script=$PWD/../tools/snapshot.py
programs=$PWD/out
scratch=$(mktemp -d)
trap 'kill $processes 2> /dev/null; rm -rf "$scratch"' EXIT
processes=
failed=0
mkdir "$scratch/written"

# Starts a program, and leaves its number in `started`.
start() {
    "$@" &
    started=$!
    processes="$processes $started"
    until grep -qE '^(34|29) ' "/proc/$started/syscall"; do sleep 0.1; done
}

# Runs gdb with `words` after `snapshot`, and looks at its status and at the files that it leaves.
try() {
    local wanted=$1 what=$2 words=$3 said status left as=()
    set -- "${@:4}"
    [ "${*: -2}" = 'as nobody' ] && as=(setpriv --reuid=65534 --clear-groups) && set -- "${@:1:$#-2}"
    said=$(cd "$scratch/written" && "${as[@]}" gdb -nx -batch "$@" -ix "$script" -ex "snapshot $words" 2>&1 < /dev/null)
    status=$?
    left=$(ls -A "$scratch/written" | tr '\n' ' ')
    rm -rf "$scratch"/written/* "$scratch"/written/.snapshot*
    echo "$what: $(grep -E '^(snapshot:|wrote)' <<< "$said" | sed "s#$scratch/##g; s#$programs/##g" | head -1) [status $status; files: ${left:-none}]"
    [ "$status" = "$wanted" ] && [ -z "$left" ] || { [ "$wanted" = 0 ] && [ "$left" = "a.json " ]; } || failed=1
}

refused() { try 1 "$@"; }
taken() { try 0 "$@"; }

without_process() {
    refused 'no such process' 'a.json --interrupted' -p 4194305
    refused 'no process and no core' 'a.json'
    refused 'a program that does not run' 'a.json' "$programs/nested-gcc-O2"
    refused 'a program that is not there' 'a.json' "$programs/none" "$programs/core"
    refused 'a core that is not there' 'a.json' "$programs/nested-gcc-O2" "$scratch/none"
    : > "$scratch/empty"
    refused 'an empty core' 'a.json' "$programs/nested-gcc-O2" "$scratch/empty"
    refused 'a core that is text' 'a.json' "$programs/nested-gcc-O2" "$script"
    refused 'a core that is a program' 'a.json' "$programs/nested-gcc-O2" "$programs/nested-gcc-O0"
}

of_words() {
    refused 'no file named' '--interrupted' -p "$live"
    refused 'both marks' 'a.json --called --interrupted' -p "$live"
    refused 'a mark for all threads' 'a --threads --called' -p "$live"
    refused 'no bytes of the stack' 'a.json --stack-bytes 0' -p "$live"
    refused 'an unknown option' 'a.json --all' -p "$live"
    refused 'limit 0' 'a.json --limit 0' -p "$live"
    refused 'a word past 64 bits' 'a.json --exception 0x10000000000000000' -p "$live"
    refused 'half an entry' 'a.json --resume 0x401000' -p "$live"
    refused '--module that names none' 'a.json --module libnone.so' -p "$live"
    refused 'a folder that is not there' 'none/a.json' -p "$live"
    refused 'a folder' "$scratch" -p "$live"
    refused 'a device' '/dev/full' -p "$live"
    refused 'a folder that is not empty' "$scratch --threads" -p "$live"
}

of_files() {
    strip -o "$scratch/stripped" "$programs/nested-gcc-O2"
    objcopy -R .eh_frame -R .eh_frame_hdr "$programs/nested-gcc-O2" "$scratch/tableless"
    cp "$programs/nested-gcc-O2" "$scratch/gone"
    start "$scratch/tableless"
    taken 'a program without .eh_frame' 'a.json' -p "$started"
    refused 'a module without .eh_frame' 'a.json --module tableless' -p "$started"
    start "$scratch/gone"
    gdb -nx -batch -p "$started" -ex "gcore $scratch/core" > /dev/null 2>&1
    mv "$scratch/gone" "$scratch/kept"
    rm "$scratch/kept"
    taken "a process whose program's file is gone" 'a.json' -p "$started"
    refused "a core without the program's file" 'a.json' -c "$scratch/core"
    refused 'a core with another program' 'a.json' "$programs/frame_pointer-gcc-O0" "$scratch/core"
    head -c 3000 "$scratch/core" > "$scratch/cut"
    refused 'a core that was cut off before its notes' 'a.json' "$programs/nested-gcc-O2" "$scratch/cut"
    refused 'a core before its program' 'a.json' "$scratch/core" "$programs/nested-gcc-O2"
    start "$scratch/stripped"
    taken 'a stripped program' 'a.json' -p "$started"
    taken 'a core with its program' 'a.json' "$programs/nested-gcc-O2" "$scratch/core"
}

# A core that the system wrote, where it writes one here, has its notes before its memory.
of_cores() {
    mkdir "$scratch/system"
    cd "$scratch/system"
    ulimit -c unlimited
    start "$programs/nested-gcc-O2"
    kill -SEGV "$started"
    wait "$started" 2> /dev/null
    [ -e core* ] || return "$failed"
    head -c 100000 core* > "$scratch/cut"
    taken 'a core that was cut off in its memory' 'a.json' "$programs/nested-gcc-O2" "$scratch/cut"
    return "$failed"
}

# Where gdb may not trace the process: it runs as another user, or another gdb traces it.
of_permission() {
    if [ "$(id -u)" = 0 ]; then
        refused "another user's process" 'a.json' -p "$live" as nobody
    fi
    gdb -nx -batch -p "$live" -ex 'shell sleep 20' > /dev/null 2>&1 &
    processes="$processes $!"
    until grep -q '^TracerPid:.[1-9]' "/proc/$live/status"; do sleep 0.1; done
    refused 'a process that is traced already' 'a.json' -p "$live"
}

# A program of 32 bits, without a C library, where the system runs such programs.
of_32_bits() {
    printf 'void _start(void) { for (;;) { int r = 29; __asm__ volatile("int $0x80" : "+a"(r)); } }\n' > "$scratch/small.c"
    if gcc -m32 -nostdlib -static -fno-pic -o "$scratch/small" "$scratch/small.c" 2> /dev/null && start "$scratch/small"; then
        refused 'a process of 32 bits' 'a.json' -p "$started"
    fi
}

# A file of more than some kilobytes can't be written: a full disk is alike.
without_room() {
    ulimit -f 8
    refused 'no room for the file' 'a.json' -p "$live"
}

start "$programs/nested-gcc-O2"
live=$started
without_process
of_words
of_files
of_32_bits
(of_cores) || failed=1
(without_room; exit "$failed") || failed=1
of_permission
exit "$failed"
