#!/usr/bin/env bash
# Instructions of public `step` over a prepared space, beside those of a frame of `walk_into` and of
# `walk_to_end_cached` over the same chain, by callgrind. In a copy of the repository it adds a program
# that reads a chain's snapshot (`bench/chain.py`), prepares its space, and goes 1,000,000 frames
# outwards, from the start again each time that the chain ends; it proves and builds the program, and
# runs it for no frames and for all.
#
#     bench/step.sh [COUNT..]      the chains' calls, 10,000 and 100 unless given: addresses that a cache
#                                  has no places for, and those that it keeps
#
# It wants `rt`, `valgrind` and python3, and leaves nothing behind.

# shellcheck source-path=SCRIPTDIR source=common.sh
. "$(dirname "$0")/common.sh"

[ $# -gt 0 ] || set -- 10000 100

add_program steps memory_image command_ends unwind_arch stack_deliver stack_snapshot anyhow <<'RATTLE'
//! Steps, or walks, over a prepared chain.
#![tactic(auto)]

use anyhow::{Result, bail};
use command_ends::read_all;
use memory_image::{NoLedger, StdinSource, Steps};
use stack_deliver::{Context, FrameCache, Room, Space, step, walk_into, walk_to_end_cached};
use stack_snapshot::{Snapshot, read_snapshot};
use std::env;
use unwind_arch::x86_64::RSP;

// Steps outwards from the start, and from it again where the stack ends: so many in all.
fn stepped(space: &Space<'_>, snapshot: &Snapshot, count: u32) -> Result<u64> {
    let mut steps = Steps::new(NoLedger);
    let mut context = snapshot.start();
    let mut interrupted = snapshot.interrupted();
    let mut sum = 0u64;
    for _ in 0..count {
        match step(space, &context, interrupted, &mut steps) {
            Ok(Some(next)) => {
                sum = sum.wrapping_add(next.context.registers[RSP]);
                context = next.context;
                interrupted = next.signal;
            }
            Ok(None) => {
                context = snapshot.start();
                interrupted = snapshot.interrupted();
            }
            Err(_) => bail!("a step is refused"),
        }
    }
    Ok(sum)
}

// Walks into one room, until so many states stood in it.
fn walked(space: &Space<'_>, snapshot: &Snapshot, room: &mut Room, count: u32) -> Result<u64> {
    let mut steps = Steps::new(NoLedger);
    let start: Context = snapshot.start();
    let mut met = 0u64;
    for _ in 0..count {
        if met >= u64::from(count) {
            break;
        }
        let limit = room.limit();
        match walk_into(space, &start, snapshot.interrupted(), limit, room, &mut steps) {
            Ok(()) => met = met.saturating_add(room.visited_len() as u64),
            Err(_) => bail!("a walk is refused"),
        }
    }
    Ok(met)
}

// Walks by a cache into one room, until so many states stood in it.
fn walked_cached(
    cache: &mut FrameCache<'_, '_>,
    snapshot: &Snapshot,
    room: &mut Room,
    count: u32,
) -> u64 {
    let mut steps = Steps::new(NoLedger);
    let start: Context = snapshot.start();
    let interrupted = snapshot.interrupted();
    let mut met = 0u64;
    for _ in 0..count {
        if met >= u64::from(count) {
            break;
        }
        let limit = room.limit();
        let grown = cache.over(cache.space().image());
        let _ = walk_to_end_cached(cache, &grown, &start, interrupted, limit, room, &mut steps);
        met = met.saturating_add(room.visited_len() as u64);
    }
    met
}

// What to go by.
#[derive(Clone, Copy)]
enum Way {
    Step,
    Walk,
    CachedWalk,
}

// The way, and for how many frames.
fn asked(rt: &HostRuntime) -> Result<(Way, u32)> {
    let mut words = env::args(rt)?;
    let _name = words.next();
    let way = match words.next() {
        Some(word) => match word.as_str() {
            "step" => Way::Step,
            "walk" => Way::Walk,
            _ => Way::CachedWalk,
        },
        None => bail!("step, walk or cached_walk"),
    };
    match words.next() {
        Some(word) => Ok((way, word.as_str().parse::<u32>()?)),
        None => bail!("a number"),
    }
}

fn main(rt: HostRuntime) -> Result<()> {
    let (way, count) = asked(&rt)?;
    let mut input = StdinSource::new(rt.stdin());
    let Ok(bytes) = read_all(rt.alloc(), &mut input) else {
        bail!("no input");
    };
    let Ok(snapshot) = read_snapshot(rt.alloc(), &bytes) else {
        bail!("no snapshot");
    };
    let mut space = snapshot.space(rt.alloc())?;
    let prepared = space.prepare()?;
    let mut room = Room::new(rt.alloc(), snapshot.limit())?;
    let mut cache = FrameCache::new(rt.alloc(), &space)?;
    let sum = match way {
        Way::Step => stepped(&space, &snapshot, count)?,
        Way::Walk => walked(&space, &snapshot, &mut room, count)?,
        Way::CachedWalk => walked_cached(&mut cache, &snapshot, &mut room, count),
    };
    println!(rt; "{prepared} {sum}")?;
    Ok(())
}
RATTLE

python3 "$here/chain.py" "$1" 1 >"$work/input"
build_program steps step 0 <"$work/input"

# WORD: what a frame costs.
cost() {
    local none all
    none=$(instructions "$program" "$1" 0 <"$work/input")
    all=$(instructions "$program" "$1" 1000000 <"$work/input")
    cat "$work/told" >&2
    echo "$2 calls, $1: $(((all - none) / 1000000)) instructions a frame"
}

for count in "$@"; do
    python3 "$here/chain.py" "$count" 1 >"$work/input"
    for way in step walk cached_walk; do
        cost "$way" "$count"
    done
done
