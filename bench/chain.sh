#!/usr/bin/env bash
# Measures walks and deliveries over chains of calls, beside the same work over gimli: instructions
# (callgrind), their growth, and peak memory.
#
#     bench/chain.sh [COUNT..]
#
# Wants valgrind, GNU time, cargo and python3, the crates gimli 0.27, serde_json and hex, and the
# program as `rt run` left it in crates/unwind_cli/out. Where no network is at hand,
# REGISTRY names a folder with the sources of the crates and what they stand on (Debian's packages
# librust-gimli-dev, librust-serde-json-dev and librust-hex-dev put them into
# /usr/share/cargo/registry). `bench/chain.py` makes the snapshots, and `bench/gimli` is the program
# over gimli; both have to write the same report.
#
# Of each chain, named by its frame table and by its header table, and for `walk` and `deliver`:
#
#   whole     what the process takes, and what a frame takes more between the count before and this
#             one, so that the start of the process isn't in it
#   alone     the walk or the delivery without reading, preparing and reporting, a frame
#   peak      the largest resident set
#   parts     of the proved program: reading the snapshot, the JSON reader's part of that, and
#             preparing, against each of the two

# shellcheck source-path=SCRIPTDIR source=common.sh
. "$(dirname "$0")/common.sh"

[ $# -gt 0 ] || set -- 1000 10000 100000
build_cargo gimli
peer=$work/gimli/target/release/gimli_walk

# PROGRAM WORD: the instructions of a run on the input. Its counts and its report are left in the folder.
counted() {
    instructions "$1" "$2" <"$work/input"
    mv "$work/callgrind" "$work/$(basename "$1").counts"
    mv "$work/told" "$work/$(basename "$1").report"
}

# NAME..: what the calls of these functions cost in the proved program's last run.
inclusive() {
    python3 "$here/calls.py" cost "$work/unwind_cli.counts" "$@"
}

# WORD HEADER: the rows of the table.
measure() {
    word=$1
    header=$2
    # whichever of these the compiler keeps as a function
    case $word in
        walk) alone=(walking::walk_into walking::walk_with_rows unwind::unwind_frames) ;;
        deliver) alone=(delivery::deliver_into delivery::fresh_throw delivery::delivery_in_room passes::passes unwind::unwind_frames) ;;
    esac
    printf '%s, by the %s\n' "$word" "$([ -n "$header" ] && echo 'header table' || echo 'frame table')"
    printf '%8s %14s %8s %7s %8s %14s %8s %8s %9s %9s %12s %12s %12s\n' frames proved a-frame alone growth \
        gimli a-frame alone peak-kB gimli-kB reading json prepare
    before='' proved_before='' peer_before='' alone_before=''
    shift 2
    for count in "$@"; do
        python3 "$here/chain.py" "$count" 1 ${header:+"$header"} >"$work/input"
        proved_whole=$(counted "$proved" "$word")
        peer_whole=$(counted "$peer" "$word")
        cmp "$work/unwind_cli.report" "$work/gimli_walk.report"
        proved_alone=$(inclusive "${alone[@]}")
        gimli_alone=$(python3 "$here/calls.py" cost "$work/gimli_walk.counts" "gimli_walk::passes::$word")
        if [ -n "$before" ]; then
            more=$((count - before))
            proved_frame=$(((proved_whole - proved_before) / more))
            peer_frame=$(((peer_whole - peer_before) / more))
            growth=$(ratio "$((proved_alone * before / count))" "$alone_before")
        else
            proved_frame=- peer_frame=- growth=-
        fi
        read=$(inclusive reading:: serde_json::)
        json=$(inclusive serde_json::)
        prepare=$(inclusive Space::prepare prepared::table Prepared::build)
        printf '%8d %14d %8s %7d %8s %14d %8s %8d %9d %9d %12d %12d %12d (%s, %s)\n' "$count" "$proved_whole" \
            "$proved_frame" "$((proved_alone / count))" "$growth" "$peer_whole" "$peer_frame" \
            "$((gimli_alone / count))" "$(peak "$proved" "$word" <"$work/input")" \
            "$(peak "$peer" "$word" <"$work/input")" "$read" "$json" "$prepare" \
            "$(ratio "$prepare" "$read")" "$(ratio "$prepare" "$json")"
        before=$count proved_before=$proved_whole peer_before=$peer_whole alone_before=$proved_alone
    done
}

for word in walk deliver; do
    measure "$word" '' "$@"
    measure "$word" --header "$@"
done
