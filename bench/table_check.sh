#!/usr/bin/env bash
# Measures `check` of `table_check` by the number of functions: instructions (callgrind) for each function of a generated
# chain, whose claims say its own functions, their growth, and how often it allocates.
#
#     bench/table_check.sh [COUNT]...
#
# In a copy of the repository it adds a program that makes a chain with its tables and the claims of its functions, and checks
# them or doesn't; it proves and builds the program. Wants `rt` and valgrind. Of each run:
#
#   instructions   what the check takes, a function: with it less without it
#   growth         of that, from the row before
#   allocations    what it asks of the heap, with it less without it
#
# Each check has to answer yes.

# shellcheck source-path=SCRIPTDIR source=common.sh
. "$(dirname "$0")/common.sh"

add_program checks memory_image generated_chains table_check anyhow <<'RATTLE'
//! Checks the functions of a generated chain against its tables, or doesn't.
#![tactic(auto)]

use anyhow::{Result, bail};
use generated_chains::{Chain, FRAMES, HEADER, Handling, Kind, LANGUAGES, Outline, TEXT, chain_of, outlines};
use memory_image::MemoryImage;
use std::alloc::{AllocError, Global};
use std::env;
use table_check::{ClaimStep, Claims, EhAction, FrameInfo, FrameInfoKind, Register, Verdict, check};

const RBX: Register = Register(3);

const RBP: Register = Register(6);

// Adds the prologue of a function.
fn add_steps(claims: &mut Claims, kind: Kind) -> Result<(), AllocError> {
    match kind {
        Kind::Pushes => {
            claims.step(1, ClaimStep::Push(RBX))?;
        }
        Kind::PushesAndAllocates => {
            claims.step(1, ClaimStep::Push(RBX))?;
            claims.step(5, ClaimStep::Allocate(16))?;
        }
        Kind::SetsFrame => {
            claims.step(1, ClaimStep::Push(RBP))?;
            claims.step(4, ClaimStep::Set(0))?;
        }
        Kind::SetsFrameAndPushes => {
            claims.step(1, ClaimStep::Push(RBP))?;
            claims.step(4, ClaimStep::Set(0))?;
            claims.step(5, ClaimStep::Push(RBX))?;
            claims.step(9, ClaimStep::Allocate(24))?;
        }
    }
    Ok(())
}

// Adds the call sites of a function, where it has any.
fn add_sites(claims: &mut Claims, handling: Handling, start: u64) -> Result<(), AllocError> {
    let pad = start.saturating_add(48);
    let action = match handling {
        Handling::PassesOn => return Ok(()),
        Handling::CleansUp => EhAction::Cleanup(pad),
        Handling::Catches => EhAction::Catch(pad),
    };
    claims.table()?;
    claims.site(start.saturating_add(16), start.saturating_add(40), action)?;
    if handling == Handling::CleansUp {
        claims.site(pad, start.saturating_add(64), EhAction::None)?;
    }
    Ok(())
}

// Claims a function.
fn add(claims: &mut Claims, outline: Outline) -> Result<(), AllocError> {
    let start = u64::from(TEXT).saturating_add(u64::from(outline.index) * 64);
    claims.push(start, start.saturating_add(64), false)?;
    add_steps(claims, outline.kind)?;
    claims.body(start.saturating_add(16), start.saturating_add(64))?;
    add_sites(claims, outline.handling, start)
}

// Claims each function.
fn claims_of(alloc: Global, functions: &[Outline]) -> Result<Claims, AllocError> {
    let mut claims = Claims::new(alloc);
    for function in functions {
        add(&mut claims, *function)?;
    }
    Ok(claims)
}

// How many functions there are, and whether to check them.
fn asked(rt: &HostRuntime) -> Result<(u32, bool)> {
    let mut words = env::args(rt)?;
    let _name = words.next();
    let Some(count) = words.next() else {
        bail!("no count");
    };
    let Ok(count) = count.as_str().parse::<u32>() else {
        bail!("no number");
    };
    Ok((count, words.next().is_some()))
}

// The tables in memory.
fn image_of(alloc: Global, chain: &Chain) -> Result<MemoryImage<'_>> {
    let mut image = MemoryImage::new(alloc);
    image.add(u64::from(HEADER), &chain.header)?;
    image.add(u64::from(FRAMES), &chain.frames)?;
    image.add(u64::from(LANGUAGES), &chain.languages)?;
    Ok(image)
}

// What the check answers.
fn verdict(image: &MemoryImage<'_>, count: u32, claims: &mut Claims) -> Verdict {
    let frame = FrameInfo {
        text_base: None,
        kind: FrameInfoKind::EhFrameHdr(u64::from(HEADER)),
    };
    let start = u64::from(TEXT);
    let end = start.saturating_add(u64::from(count) * 64);
    check(image, start, end, frame, claims)
}

fn main(rt: HostRuntime) -> Result<()> {
    let (count, checks) = asked(&rt)?;
    if count == 0 || count > 100_000 {
        bail!("from 1 to 100,000 functions");
    }
    let seed = 18446744073709551615;
    let functions = outlines(rt.alloc(), count, seed)?;
    let chain = chain_of(rt.alloc(), count, seed)?;
    let image = image_of(rt.alloc(), &chain)?;
    let mut claims = claims_of(rt.alloc(), &functions)?;
    if checks {
        let answer = verdict(&image, count, &mut claims);
        println!(rt; "{answer:?}")?;
    } else {
        println!(rt; "-")?;
    }
    Ok(())
}
RATTLE

# COUNT: a row of the table.
measure() {
    local count=$1 none checked growth=- asked
    none=$(instructions "$program" "$count")
    checked=$((($(instructions "$program" "$count" check) - none) / count))
    [ "$(cat "$work/told")" = Yes ] || { echo "table_check.sh: $(cat "$work/told")" >&2; exit 1; }
    asked=$(($(allocations "$count" check) - $(allocations "$count")))
    [ -z "${before:-}" ] || growth=$(ratio "$checked" "$before")
    printf '%9d %12d %7s %11d\n' "$count" "$checked" "$growth" "$asked"
    before=$checked
}

build_program checks 1 check
printf '%9s %12s %7s %11s\n' functions instructions growth allocations
if [ $# -eq 0 ]; then set -- 1000 10000 100000; fi
for count in "$@"; do measure "$count"; done
