#!/usr/bin/env bash
# Prints what ../bench/cores.sh says of cores of C, C++ and Rust programs, of which README.md has a table: builds the
# programs, has each leave a core, and compares its backtraces with those of gdb and eu-stack.
#
#   cores.sh [WORD]           those alone whose names contain the word
#
# Wants what ../bench/cores.sh wants, gcc, g++ and rustc. THREADS (10 1000) are the numbers of threads.
set -uo pipefail
cd "$(dirname "$0")" || exit
word=${1:-}
bench=$PWD/../bench
scratch=$(mktemp -d)
trap 'rm -rf "$scratch"' EXIT
ulimit -c unlimited

# NAME: whether it is asked for.
asked() {
    [[ $1 == *"$word"* ]]
}

# NAME COMMAND..: builds the program NAME.
built() {
    local name=$1
    shift
    "$@" -o "$scratch/$name" 2> "$scratch/build.errors" || { cat "$scratch/build.errors" >&2; exit 1; }
}

# PROGRAM WORDS..: has a program leave a core. Its stack has STACK kilobytes, and the system writes at most LIMIT of the core,
# where these are set.
leave_core() {
    rm -f "$scratch"/core*
    { (cd "$scratch" && ulimit -s "${STACK:-8192}" && ulimit -c "${LIMIT:-unlimited}" && "$@" > /dev/null); } 2> /dev/null
}

# NAME PROGRAM WORDS..: has a program leave a core and compares. The system writes WRITTEN percent of it, and the first CUT
# percent of its bytes are kept, where these are set.
core_of() {
    local name=$1 program=$scratch/$2
    shift 2
    asked "$name" || return
    echo "$name"
    leave_core "$program" "$@"
    if [ -n "${WRITTEN:-}" ]; then
        LIMIT=$(($(du -k "$scratch"/core* | cut -f 1) * WRITTEN / 100)) leave_core "$program" "$@"
    fi
    set -- "$scratch"/core*
    if [ ! -f "$1" ]; then
        echo "  no core: see core(5)"
        return
    fi
    [ -z "${CUT:-}" ] || truncate -s $(($(stat -c %s "$1") * CUT / 100)) "$1"
    "$bench/cores.sh" "$program" "$1" | sed 's/^/  /'
}

# NAME COMMAND..: the cores of a program of many threads, as it is built, stripped, and linked in two ways.
cores_of() {
    local name=$1 threads
    shift
    asked "$name" || [[ $word == "$name"* ]] || return
    built "$name" "$@"
    cp "$scratch/$name" "$scratch/$name-stripped"
    strip "$scratch/$name-stripped"
    case $1 in
        rustc)
            built "$name-static" "$@" -C target-feature=+crt-static -C relocation-model=static
            built "$name-static-pie" "$@" -C target-feature=+crt-static ;;
        *)
            built "$name-static" "$@" -static
            built "$name-static-pie" "$@" -static-pie ;;
    esac
    for threads in ${THREADS:-10 1000}; do
        for program in "$name" "$name-stripped" "$name-static" "$name-static-pie"; do
            core_of "$program $threads" "$program" "$threads"
        done
        CUT=60 core_of "$name $threads, cut to 60 %" "$name" "$threads"
        WRITTEN=95 core_of "$name $threads, cut by the system" "$name" "$threads"
        WRITTEN=80 core_of "$name-static $threads, cut by the system" "$name-static" "$threads"
        [ "$name" = c ] || STACK=512 core_of "$name $threads, a stack overflow" "$name" "$threads" overflow
    done
}

cores_of c gcc -O2 -pthread many_threads.c
cores_of cpp g++ -std=c++17 -O2 -pthread many_threads.cpp
cores_of rust rustc --edition 2021 -O many_threads.rs
built overflow gcc -O0 overflow.c
STACK=512 core_of 'overflow, a stack of 512 KiB' overflow
core_of overflow overflow
built deep gcc -O0 deep.c
STACK=unlimited core_of 'deep, 100,000 calls' deep 100000
