#!/usr/bin/env bash
# Measures `fold`: instructions (callgrind) for each frame of all samples, beside those of the walks alone, their growth with
# the number of samples, and the heap that it takes beside the stacks' own bytes.
#
#     bench/fold.sh [SAMPLES FRAMES [STACKS]]
#
# In a copy of the repository it adds a program that reads samples, prepares their space, and folds or walks them all once or
# not at all; it proves and builds the program. Wants `rt`, valgrind and python3. `bench/samples.py` makes the samples, over
# 1,000 functions. Of each run:
#
#   fold       what folding takes, a frame: with it less without it
#   walks      what the walks take, with one room for rows for all of them
#   rest       gathering, sorting and counting the stacks
#   growth     of `fold` a frame, from the row before with stacks of as many frames
#   heap       the most that folding has of the heap (massif), in bytes, and as a multiple of the stacks' own: 8 for each
#              address
#
# Each number of stacks has to be the one that samples.py knows from the functions that it chose.

# shellcheck source-path=SCRIPTDIR source=common.sh
. "$(dirname "$0")/common.sh"

functions=1000

add_program folds memory_image command_ends stack_deliver folded_stacks stack_snapshot anyhow <<'RATTLE'
//! Folds, or walks, samples over a prepared space.
#![tactic(auto)]

use anyhow::{Result, bail};
use command_ends::read_all;
use folded_stacks::{Samples, fold};
use memory_image::{NoLedger, StdinSource, Steps};
use stack_deliver::{Room, RowRoom, Space, walk_with_rows};
use stack_snapshot::read_sampled_snapshot;
use std::env;

// Walks each sample into one room, with one room for rows, and counts the states.
fn walked(space: &Space<'_>, samples: &Samples, room: &mut Room) -> Result<u64> {
    let mut steps = Steps::new(NoLedger);
    let mut rows = RowRoom::new();
    let mut met = 0u64;
    for sample in samples.as_slice() {
        let start = &sample.start;
        let rows = &mut rows;
        let limit = room.limit();
        match walk_with_rows(space, start, sample.interrupted, limit, room, rows, &mut steps) {
            Ok(()) => met = met.saturating_add(room.visited_len() as u64),
            Err(_) => bail!("a walk is refused"),
        }
    }
    Ok(met)
}

// What to do: `fold`, `walk` or nothing.
fn asked(rt: &HostRuntime) -> Result<u8> {
    let mut words = env::args(rt)?;
    let _name = words.next();
    match words.next() {
        Some(word) => match word.as_str() {
            "fold" => Ok(1),
            "walk" => Ok(2),
            _ => Ok(0),
        },
        None => Ok(0),
    }
}

fn main(rt: HostRuntime) -> Result<()> {
    let task = asked(&rt)?;
    let mut input = StdinSource::new(rt.stdin());
    let Ok(bytes) = read_all(rt.alloc(), &mut input) else {
        bail!("no input");
    };
    let Ok(snapshot) = read_sampled_snapshot(rt.alloc(), &bytes) else {
        bail!("no samples");
    };
    let mut space = snapshot.space(rt.alloc())?;
    let prepared = space.prepare()?;
    let told = if task == 1 {
        let folded = fold(rt.alloc(), &space, snapshot.samples(), snapshot.limit())?;
        folded.len() as u64
    } else if task == 2 {
        let mut room = Room::new(rt.alloc(), snapshot.limit())?;
        walked(&space, snapshot.samples(), &mut room)?
    } else {
        0
    };
    println!(rt; "{prepared} {told}")?;
    Ok(())
}
RATTLE

# The most that folding has of the heap. Reading the text takes more, but that is let go before.
heap() {
    local word
    for word in none fold; do
        valgrind --tool=massif --massif-out-file="$work/massif-$word" --max-snapshots=1000 --time-unit=i \
            "$program" "$word" <"$work/input" >"$work/told" 2>"$work/log"
    done
    python3 "$here/heap.py" "$work/massif-none" "$work/massif-fold"
}

# SAMPLES FRAMES [STACKS]: a row of the table.
measure() {
    local samples=$1 length=$2 stacks=${3:-$1} frames=$(($1 * $2)) none fold walks growth=- heap lines
    set -- "$samples" "$length" "$functions" 1 --stacks "$stacks"
    python3 "$here/samples.py" "$@" >"$work/input"
    none=$(instructions "$program" none <"$work/input")
    fold=$((($(instructions "$program" fold <"$work/input") - none) / frames))
    lines=$(($(python3 "$here/samples.py" "$@" --report | wc -l) - 1))
    [ "$(cut -d ' ' -f 2 "$work/told")" = "$lines" ] || { echo "fold.sh: not $lines stacks" >&2; exit 1; }
    walks=$((($(instructions "$program" walk <"$work/input") - none) / frames))
    [ "$length" != "${length_before:-}" ] || growth=$(ratio "$fold" "$fold_before")
    heap=$(heap)
    printf '%7d %6d %6d %6d %6d %5d %7s %10d %5s\n' "$samples" "$length" "$stacks" "$fold" "$walks" "$((fold - walks))" \
        "$growth" "$heap" "$(ratio "$heap" "$((8 * frames))")"
    length_before=$length fold_before=$fold
}

python3 "$here/samples.py" 10 30 "$functions" 1 >"$work/input"
build_program folds none <"$work/input"
printf '%7s %6s %6s %6s %6s %5s %7s %10s %5s\n' samples frames stacks fold walks rest growth heap times
if [ $# -gt 0 ]; then
    measure "$@"
else
    measure 10000 30
    measure 10000 30 1
    measure 10000 15
    measure 65536 15
fi
