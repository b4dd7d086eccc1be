#!/usr/bin/env bash
# Measures a delivery by the cleanups that run: instructions (callgrind) for each of them.
#
#     bench/deliver.sh
#
# Wants valgrind and python3, and the program as `rt run` left it in
# crates/unwind_cli/out. The stack is that of calls of a function with a cleanup, each of which asks
# for it, below a function with a handler. Everything is the difference of two lengths, so that the
# start of the process isn't in it. Three runs of one stack tell what the parts of a delivery cost:
#
#   walked      `walk`: a step of each frame, and its line
#   searched    `deliver` where no call site holds the outermost call: what each language table asks in
#               a search too
#   delivered   `deliver`: a cleanup of each frame too, the pass that goes on after it, and its line

# shellcheck source-path=SCRIPTDIR source=common.sh
. "$(dirname "$0")/common.sh"

# WORD SNAPSHOT..: what a run costs whole.
measure() {
    word=$1
    shift
    python3 "$here/snapshots.py" cleanups "$@" >"$work/input"
    instructions "$proved" "$word" <"$work/input"
}

# LAST COUNT: the report of the last run has to end so, with so many lines of cleanups before.
expect() {
    if [ "$(tail -1 "$work/told")" != "$1" ] || [ "$(grep -c ^cleanup "$work/told")" != "$2" ]; then
        echo "unexpected report: $(tail -1 "$work/told")" >&2
        exit 1
    fi
}

# How often a frame was asked what its language table says in the last run.
steps() {
    python3 "$here/calls.py" count "$work/callgrind" stack_steps::elf::prepared_asks | sed 's/^/         asked: /'
}

# NAME WORDS: the costs by length.
lengths() {
    name=$1
    shift
    # so many that each run prepares the modules, as over longer stacks
    few=600
    limit=10003
    echo "$name"
    printf '%8s %13s %8s %13s %8s %13s %8s %10s\n' \
        cleanups walked a-frame searched a-frame delivered a-frame a-cleanup
    # the costs from which those of a frame are counted are the last ones
    for count in 10 $few; do
        walk_few=$(measure walk "$count" "$limit" "$@")
        search_few=$(measure deliver "$count" "$limit" "$@" uncaught)
        deliver_few=$(measure deliver "$count" "$limit" "$@")
        printf '%8d %13d %8s %13d %8s %13d\n' "$count" "$walk_few" - "$search_few" - "$deliver_few"
    done
    for count in 1000 10000; do
        walked=$(measure walk "$count" "$limit" "$@")
        expect end 0
        searched=$(measure deliver "$count" "$limit" "$@" uncaught)
        expect 'outcome fatal phase 1' 0
        delivered=$(measure deliver "$count" "$limit" "$@")
        expect 'outcome installed' "$count"
        more=$((count - few))
        printf '%8d %13d %8d %13d %8d %13d %8d %10d\n' $count \
            "$walked" $(((walked - walk_few) / more)) \
            "$searched" $(((searched - search_few) / more)) \
            "$delivered" $(((delivered - deliver_few) / more)) \
            $(((delivered - deliver_few - searched + search_few) / more))
        steps
    done
}

lengths 'calls of one function'
lengths 'calls of functions of their own, each with its module and its landing pad' apart

# The resume table: what a cleanup costs by the number of entries.
for kind in same other; do
    for entries in 0 100 10000 100000; do
        few=$(measure deliver 600 1003 "$kind" "$entries")
        many=$(measure deliver 1000 1003 "$kind" "$entries")
        expect 'outcome installed' 1000
        printf '%6d more entries (%s): %d, a frame with its cleanup %d\n' \
            "$entries" "$kind" "$many" $(((many - few) / 400))
    done
done
