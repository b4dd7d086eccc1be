#!/usr/bin/env bash
# Takes the snapshot of a program in out/, and writes what gdb says of the same process.
#
#   take.sh walk NAME SNAPSHOT FRAMES        where it stops, the program's module alone: gdb's frames
#   take.sh whole NAME SNAPSHOT FRAMES       the same with all modules, up to the outermost frame's outside
#   take.sh formats NAME SNAPSHOT FRAMES     the same of one with a PE and a Mach-O image: what its run showed
#   take.sh steps NAME COUNT                 before each of so many instructions, into out/NAME.steps
#   take.sh delivery NAME SNAPSHOT REPORT    where it throws: gdb's frames, the landing pads, the handler
#   take.sh thrown NAME-FORMAT SNAPSHOT REPORT    the same through a PE and a Mach-O image, whose frames the run showed
#
# The program runs without an environment and without a random layout, so that addresses and bytes
# are the same each time, and nothing of the machine is in its stack.
set -euo pipefail
cd "$(dirname "$0")/out"

begin() {
    env -i setarch -R "./$1" &
    process=$!
    trap 'kill "$process"' EXIT
    until grep -q '^34 ' "/proc/$process/syscall"; do sleep 0.1; done
}

in_gdb() {
    gdb -nx -q -p "$process" -batch -x ../../tools/frames.py -x ../../tools/landings.py -ix ../../tools/snapshot.py -x ../steps.py -x ../stops.py "$@"
}

# Only its owner may read a snapshot that the command writes, and it has paths of this machine; these
# hold nothing of anybody.
for_all() {
    ../../tools/join.py --bare "$1.taken" > "../$2"
    rm "$1.taken"
    if [ -e "$1-by-header.taken" ]; then
        ../../tools/join.py --bare "$1-by-header.taken" > "../${2%.json}-by-header.json"
        rm "$1-by-header.taken"
    fi
}

# By its frame table, and by its header.
both_snapshots() {
    in_gdb "${@:3}" -ex "snapshot $1.taken --limit 64 --module $1 --frame-tables $2" -ex "snapshot $1-by-header.taken --limit 64 --module $1 $2"
}

# A process that gdb let go after its catch may have ended by itself.
end() {
    trap - EXIT
    kill "$process" 2> /dev/null || true
    wait "$process" || true
}

of_report() {
    grep -E '^(frame [0-9]+ ra=|end|cleanup|landing|outcome)'
}

# Where a program stops: where it waits, or so many instructions after a place to which it goes on.
stop_of() {
    case $1 in
        lazy_call-*-O0) echo "stop_after 1 *'getpagesize@plt'" ;;
        lazy_call-*) echo "stop_after 2 *'getpagesize@plt'" ;;
        vfork-*) echo 'stop_after 1 *vfork' ;;
        *) echo 'frame 0' ;;
    esac
}

# One gdb takes the snapshot and says what it finds: where it lets the process go it would go on.
take_stop() {
    local told
    begin "$1"
    told=$(in_gdb -ex "$(stop_of "$1")" -ex "snapshot $1.taken --limit 64 --frame-tables $4" -ex "frames $5")
    for_all "$1" "$2"
    of_report <<< "$told" > "../$3"
    end
}

take_walk() {
    begin "$1"
    both_snapshots "$1" ""
    for_all "$1" "$2"
    in_gdb -ex 'frames --program' | of_report > "../$3"
    end
}

take_stopped() {
    take_stop "$@" "--module $1" --program
}

take_whole() {
    take_stop "$@" '' --outside
}

# Run instruction by instruction to where it stops, with the images that it maps: the callers are those that the
# run has shown.
take_formats() {
    env -i HOME=/nonexistent gdb -nx -q -batch -ix ../../tools/snapshot.py -x ../../tools/stepped.py \
        -ex "stepped_to_wait $1.taken ../$3 $1.pe $1.macho" "$1" > /dev/null
    for_all "$1" "$2"
}

take_thrown() {
    local program=${1%-*}
    env -i HOME=/nonexistent gdb -nx -q -batch -ix ../../tools/snapshot.py -x ../../tools/frames.py -x ../../tools/landings.py -x ../throws.py \
        -ex "thrown $1.taken ../$3 $program.pe $program.macho" --args "$program" "${1##*-}" > /dev/null
    for_all "$1" "$2"
}

take_steps() {
    rm -rf "$1.steps"
    mkdir "$1.steps"
    begin "$1"
    in_gdb -ex "steps $2 $1.steps $1" > /dev/null
    end
}

# The return addresses after cleanups are known only when they have run, and the stack that a
# delivery begins with only before: so the program runs twice.
take_delivery() {
    local told marks
    begin "$1"
    told=$(in_gdb -ex 'landings catcher')
    end
    of_report <<< "$told" > "../$3"
    marks=$(grep -E '^--exception' <<< "$told"; sed -n 's/^resume /--resume /p' <<< "$told")
    begin "$1"
    both_snapshots "$1" "${marks//$'\n'/ }" -ex raised
    for_all "$1" "$2"
    end
}

"take_$1" "${@:2}"
