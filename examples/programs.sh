#!/usr/bin/env bash
# Prints the table of programs in README.md: builds and starts each, and has its row printed by ../bench/backtraces.py.
#
#   programs.sh [WORD]        those alone whose names contain the word
#
# What isn't installed is left out. A program that runs is stopped by a signal meanwhile, so that all three tools meet the
# same frames. Wants gdb, eu-stack, the compilers, and the programs built (BACKTRACE, UNWIND_CLI). RUNS (3) is how often
# each tool is run.
set -uo pipefail
cd "$(dirname "$0")" || exit
word=${1:-}
bench=$PWD/../bench
scratch=$(mktemp -d)
processes=
trap 'kill -KILL $processes 2> /dev/null; rm -rf "$scratch"' EXIT
ulimit -c unlimited

# NAME: whether it is asked for.
asked() {
    [[ $1 == *"$word"* ]]
}

# COMMAND..: starts it, and leaves its number in `started`.
start() {
    "$@" > /dev/null 2>&1 < /dev/null &
    started=$!
    processes="$processes $started"
    sleep "${PATIENCE:-1}"
}

# Ends what was started.
end() {
    { kill -KILL "$started" && wait "$started"; } 2> /dev/null
}

# NAME 'PID OPTIONS' or NAME OPTIONS PROGRAM CORE: a row.
row() {
    local name=$1 words
    read -ra words <<< "$2"
    "$bench/backtraces.py" "$name" "${@:3}" "${words[@]}" --runs "${RUNS:-3}"
}

# NAME OPTIONS COMMAND..: the row of a program that waits.
waits() {
    if asked "$1" && command -v "$3" > /dev/null; then
        start "${@:3}"
        row "$1" "$started $2"
        end
    fi
}

# NAME OPTIONS COMMAND..: the row of a program that runs, stopped in the mapping STOP where that is set.
runs() {
    if asked "$1" && command -v "$3" > /dev/null; then
        start "${@:3}"
        stop_at "$started" "${STOP:-}"
        row "$1" "$started $2"
        end
    fi
}

# PID [MAPPING]: stops a process, and lets it go on again until it stands in the mapping.
stop_at() {
    local counter place
    for _ in $(seq 500); do
        kill -STOP "$1"
        until grep -q '^State:.T' "/proc/$1/status"; do sleep 0.01; done
        [ -z "${2:-}" ] && return
        read -r _ _ counter < "/proc/$1/syscall"
        place=$(grep -F "$2" "/proc/$1/maps" | grep ' r-xp ' | head -1 | cut -d ' ' -f 1)
        (( counter >= 0x${place%-*} && counter < 0x${place#*-} )) && return
        kill -CONT "$1"
        sleep 0.02
    done
    echo "$1 never stood in $2" >&2
}

# NAME OPTIONS PROGRAM WORDS..: the row of the core that a program leaves.
leaves() {
    if asked "$1" && [ -x "$3" ]; then
        rm -f "$scratch"/core*
        (cd "$scratch" && exec "${@:3}") > /dev/null 2>&1
        local core=("$scratch"/core*)
        row "$1" "$2" "$3" "${core[0]}"
    fi
}

of_c() {
    gcc -g -O0 -no-pie -o "$scratch/c-O0" nested.c
    gcc -g -O2 -no-pie -o "$scratch/c-O2" nested.c
    gcc -g -O2 -o "$scratch/c-pie" nested.c
    clang -g -O2 -o "$scratch/c-clang" nested.c
    strip -o "$scratch/c-stripped" "$scratch/c-pie"
    gcc -g -O2 -static -o "$scratch/c-static" nested.c
    gcc -g -O2 -static-pie -o "$scratch/c-static-pie" nested.c
    waits 'C -O0' '' "$scratch/c-O0"
    waits 'C -O2, at a fixed address' '' "$scratch/c-O2"
    waits 'C -O2' '' "$scratch/c-pie"
    waits 'C by clang -O2' '' "$scratch/c-clang"
    waits 'C, stripped' '' "$scratch/c-stripped"
    waits 'C, static' '' "$scratch/c-static"
    waits 'C, static-pie' '' "$scratch/c-static-pie"
}

of_cxx() {
    g++ -g -O0 -o "$scratch/cxx-O0" operators.cpp
    g++ -g -O2 -o "$scratch/cxx-O2" operators.cpp
    clang++ -g -O2 -o "$scratch/cxx-clang" operators.cpp
    waits 'C++ -O0' '' "$scratch/cxx-O0"
    waits 'C++ -O2' '' "$scratch/cxx-O2"
    waits 'C++ by clang -O2' '' "$scratch/cxx-clang"
}

of_rust() {
    command -v rustc > /dev/null || return
    rustc -g -O -o "$scratch/rust" boxes.rs
    rustc -O -C panic=abort -C strip=symbols -o "$scratch/rust-abort" boxes.rs
    waits 'Rust -O -g' '' "$scratch/rust"
    waits 'Rust, panic=abort, stripped' '' "$scratch/rust-abort"
}

# `python3` may be a script that starts another one.
of_debian() {
    local recursion='import time
def turn(n):
    return time.sleep(10000) if n == 0 else max([n], key=lambda k: turn(k - 1))
turn(6)'
    waits 'python3 with debug information' '' "$(python3 -c 'import os, sys; print(os.path.realpath(sys.executable))')" -c "$recursion"
    waits 'python3 of Debian' '' /usr/bin/python3 -c "$recursion"
    # shellcheck disable=SC2016
    waits 'bash' '' bash -c 'turn() { if [ "$1" = 0 ]; then read -r line < "$2"; else turn $(($1 - 1)) "$2"; fi; }; turn 4 "$1"' bash "$scratch/pipe"
    waits 'perl' '' perl -e 'sub turn { my $n = shift; $n ? turn($n - 1) : sleep 10000 } turn(5)'
    waits 'git' '' git hash-object "$scratch/pipe"
    waits 'gdb' '' gdb -nx -q -ex 'shell sleep 10000'
    runs 'xz, running' '' xz -9 -T 1 -c /dev/urandom
}

of_windows() {
    command -v Xvfb > /dev/null || return
    start Xvfb :77
    local server=$started
    if asked Xvfb; then row Xvfb "$server"; fi
    DISPLAY=:77 waits 'xclock' '' xclock -update 1000
    DISPLAY=:77 PATIENCE=4 waits 'zenity (GTK)' '--threads' zenity --info --text here
    started=$server
    end
}

of_signals() {
    gcc -g -O2 -o "$scratch/signals" signals.c
    gcc -g -O2 -DOTHER_STACK -o "$scratch/signals-other" signals.c
    gcc -g -O0 -o "$scratch/other" other_stack.c
    gcc -g -O2 -o "$scratch/times" times.c
    PATIENCE=2.5 waits 'a signal in a signal' '' "$scratch/signals"
    PATIENCE=2.5 waits 'the inner one on a stack of its own' '' "$scratch/signals-other"
    STOP='[vdso]' runs 'in the vdso, running' '' "$scratch/times"
}

of_cores() {
    gcc -g -O0 -fno-stack-protector -o "$scratch/faults" faults.c
    gcc -g -O0 -o "$scratch/overflow" overflow.c
    gcc -g -O0 -pthread -o "$scratch/ten_threads" ten_threads.c
    local fault
    for fault in 'null read' 'wild read' abort 'double free' 'smashed stack' 'call through null'; do
        leaves "core: $fault" '' "$scratch/faults" "$fault"
    done
    leaves 'core: stack overflow' '--seconds 100' "$scratch/overflow"
    if asked 'core of 12 threads'; then
        start "$scratch/ten_threads" 12
        gdb -nx -batch -p "$started" -ex "gcore $scratch/gcore" > /dev/null 2>&1
        end
        row 'core of 12 threads, by gcore' --threads "$scratch/ten_threads" "$scratch/gcore"
    fi
}

of_threads() {
    gcc -g -O0 -pthread -o "$scratch/ten_threads" ten_threads.c
    waits '50 threads' '--threads' "$scratch/ten_threads" 50
    waits 'one of 50 threads' '' "$scratch/ten_threads" 50
}

# Code that a compiler makes at run time, and code without frame tables.
of_code() {
    waits 'node, idle' '--threads' node turns.js wait
    runs 'node, in code of its compiler' '' node turns.js
    runs 'the same, --frame-pointers' '--frame-pointers' node turns.js
    javac -d "$scratch" Turns.java 2> /dev/null
    PATIENCE=3 waits 'java, the main thread' '' java -cp "$scratch" Turns
    PATIENCE=3 waits 'java -Xint, the main thread' '' java -Xint -cp "$scratch" Turns
    PATIENCE=3 runs 'java, all threads' '--threads' java -cp "$scratch" Turns
    PATIENCE=3 runs 'java, all threads, --frame-pointers' '--threads --frame-pointers' java -cp "$scratch" Turns
    gcc -g -O1 -fno-omit-frame-pointer -fno-asynchronous-unwind-tables -o "$scratch/bare" bare.c
    waits 'C without tables, with frame pointers' '' "$scratch/bare"
    waits 'the same by --frame-pointers' '--frame-pointers' "$scratch/bare"
    musl-gcc -g -O2 -o "$scratch/musl" bare.c && musl-gcc -g -O2 -static -o "$scratch/musl-static" bare.c
    waits 'musl' '' "$scratch/musl"
    waits 'musl, static' '' "$scratch/musl-static"
    (go build -o "$scratch/go" turns.go) 2> /dev/null
    waits 'Go, waiting' '' "$scratch/go" wait
    runs 'Go, running' '--threads' "$scratch/go"
    runs 'Go, running, --frame-pointers' '--threads --frame-pointers' "$scratch/go"
    runs 'luajit' '' luajit -e 'local s = 0 for i = 1, 1e18 do s = (s * 31 + i) % 1000003 end'
    runs 'luajit, --frame-pointers' '--frame-pointers' luajit -e 'local s = 0 for i = 1, 1e18 do s = (s * 31 + i) % 1000003 end'
}

mkfifo "$scratch/pipe"
for part in of_c of_cxx of_rust of_debian of_windows of_signals of_cores of_threads of_code; do
    "$part"
done
