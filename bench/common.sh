# What the scripts of this folder share. Each reads it with `.` at its head: it stops at the first
# failure, has a folder of its own that is removed at the end, and counts instructions by callgrind.
# shellcheck shell=bash
set -euo pipefail

here=$(cd "$(dirname "${BASH_SOURCE[0]}")" && pwd)
top=$(dirname "$here")
work=$(mktemp -d)
trap 'rm -rf "$work"' EXIT

# The program, as `rt run` leaves it.
# shellcheck disable=SC2034  # the scripts use it
proved=${UNWIND_CLI:-$top/crates/unwind_cli/out/unwind_cli}

# COMMAND..: the instructions that a run takes. What it writes is left in $work/told, and callgrind's
# counts in $work/callgrind. A refusal has a status other than 0, so the status isn't looked at.
instructions() {
    valgrind --tool=callgrind --callgrind-out-file="$work/callgrind" "$@" \
        2>"$work/log" >"$work/told" || :
    grep -q 'Collected : ' "$work/log" || { cat "$work/log" >&2; exit 1; }
    sed -n 's/.*Collected : //p' "$work/log"
}

# COMMAND..: the peak memory of a run in kB, by GNU time. What it writes is left in $work/told.
peak() {
    env time -o "$work/time" -f '%M' "$@" >"$work/told" || :
    tail -1 "$work/time"
}

# WORD..: how often a run of $program on these words asks for memory.
allocations() {
    valgrind "$program" "$@" >"$work/told" 2>"$work/log"
    sed -n 's/.*total heap usage: \([0-9,]*\) allocs.*/\1/p' "$work/log" | tr -d ,
}

# a/b with two digits after the point
ratio() {
    awk -v a="$1" -v b="$2" 'BEGIN { if (b > 0) printf "%.2f", a / b; else printf "-" }'
}

# CRATE: copies it and the crates below it to the work folder, with what was proved of them. What
# isn't a crate here is a library of the kit.
add_crate() {
    local line crate
    if [ ! -d "$top/crates/$1" ] || [ -e "$work/crates/$1" ]; then return; fi
    cp -r "$top/crates/$1" "$work/crates/$1"
    line=$(grep "^$1:" "$top/crates.txt")
    echo "$line" >>"$work/crates.txt"
    for crate in ${line#*:}; do add_crate "$crate"; done
}

# NAME CRATE..: in the work folder a program over these crates, whose text is the input.
add_program() {
    local crate
    mkdir -p "$work/crates/$1/src"
    cat >"$work/crates/$1/src/main.rt"
    cp "$top/HANDLES" "$work"
    echo "$1: ${*:2}" >>"$work/crates.txt"
    for crate in "${@:2}"; do add_crate "$crate"; done
}

# NAME WORD..: proves and builds that program, and runs it on these words. It is then $program.
build_program() {
    # shellcheck disable=SC2034  # the scripts use it
    program=$work/crates/$1/out/$1
    (cd "$work/crates/$1" && rt run -- "${@:2}" >"$work/log" 2>&1) || { cat "$work/log" >&2; exit 1; }
}

# FOLDER: builds the Cargo program of a folder here. Where no network is at hand, REGISTRY names a
# folder with the sources of the crates that it stands on.
build_cargo() {
    if [ -n "${REGISTRY:-}" ]; then
        mkdir -p "$work/.cargo"
        printf '[source.crates-io]\nreplace-with = "local"\n[source.local]\ndirectory = "%s"\n' \
            "$REGISTRY" >"$work/.cargo/config.toml"
    fi
    cp -r "$here/$1" "$work/$1"
    (cd "$work/$1" && cargo build --release --quiet ${REGISTRY:+--offline})
}
