#!/usr/bin/env bash
# Measures `audit` of `fact_checks` by the number of functions: instructions (callgrind) for each function of a generated
# chain, of each of which two ranges are claimed, its first instruction and its body; their growth, and how often it
# allocates.
#
#     bench/fact_checks.sh [COUNT]...
#
# In a copy of the repository it adds a program that makes a chain with its tables and the claims of its functions, and
# audits them or doesn't; it proves and builds the program. Wants `rt` and valgrind. Of each run:
#
#   instructions   what the audit takes, a function: with it less without it
#   growth         of that, from the row before
#   allocations    what it asks of the heap, with it less without it
#
# No audit may list a difference.

# shellcheck source-path=SCRIPTDIR source=common.sh
. "$(dirname "$0")/common.sh"

add_program audits memory_image generated_chains fact_checks fde_finders anyhow <<'RATTLE'
//! Audits the functions of a generated chain, or doesn't.
#![tactic(auto)]

use anyhow::{Result, bail};
use fact_checks::{ClaimedFacts, KnownRegister, KnownRegisters, audit};
use fde_finders::{FrameInfo, FrameInfoKind};
use generated_chains::{Chain, FRAMES, HEADER, Kind, LANGUAGES, Outline, TEXT, chain_of, outlines};
use memory_image::MemoryImage;
use std::alloc::{AllocError, Global};
use std::env;

const KEPT: KnownRegister = KnownRegister {
    slot: None,
    is_kept: true,
};

fn saved_at(distance: u64) -> KnownRegister {
    KnownRegister {
        slot: Some(distance),
        is_kept: false,
    }
}

fn registers(rbx: KnownRegister, rbp: KnownRegister) -> KnownRegisters {
    KnownRegisters {
        rbx,
        rbp,
        r12: KEPT,
        r13: KEPT,
        r14: KEPT,
        r15: KEPT,
    }
}

// What is known of the body of a function.
fn body(kind: Kind, from: u64, to: u64) -> ClaimedFacts {
    let (rsp, rbp, registers) = match kind {
        Kind::Pushes => (Some(16), None, registers(saved_at(16), KEPT)),
        Kind::PushesAndAllocates => (Some(32), None, registers(saved_at(16), KEPT)),
        Kind::SetsFrame => (None, Some(16), registers(KEPT, saved_at(16))),
        Kind::SetsFrameAndPushes => (None, Some(16), registers(saved_at(24), saved_at(16))),
    };
    ClaimedFacts {
        from,
        to,
        rsp,
        rbp,
        registers,
        is_outermost: false,
    }
}

// What is known at the first address of a function.
fn entry(from: u64) -> ClaimedFacts {
    ClaimedFacts {
        from,
        to: from.saturating_add(1),
        rsp: Some(8),
        rbp: None,
        registers: registers(KEPT, KEPT),
        is_outermost: false,
    }
}

// The claims of each function.
fn claims_of(alloc: Global, functions: &[Outline]) -> Result<Vec<ClaimedFacts>, AllocError> {
    let mut claims = Vec::new(alloc);
    for function in functions {
        let start = u64::from(TEXT).saturating_add(u64::from(function.index) * 64);
        claims.push(entry(start))?;
        claims.push(body(function.kind, start.saturating_add(16), start.saturating_add(64)))?;
    }
    Ok(claims)
}

// How many functions there are, and whether to audit them.
fn asked(rt: &HostRuntime) -> Result<(u32, bool)> {
    let mut words = env::args(rt)?;
    let _name = words.next();
    let Some(count) = words.next() else {
        bail!("no count");
    };
    let Ok(count) = count.as_str().parse::<u32>() else {
        bail!("no number");
    };
    Ok((count, words.next().is_some()))
}

// The tables in memory.
fn image_of(alloc: Global, chain: &Chain) -> Result<MemoryImage<'_>> {
    let mut image = MemoryImage::new(alloc);
    image.add(u64::from(HEADER), &chain.header)?;
    image.add(u64::from(FRAMES), &chain.frames)?;
    image.add(u64::from(LANGUAGES), &chain.languages)?;
    Ok(image)
}

// How many differences there are.
fn differences(alloc: Global, image: &MemoryImage<'_>, claims: &[ClaimedFacts]) -> Result<usize> {
    let frame = FrameInfo {
        text_base: None,
        kind: FrameInfoKind::EhFrameHdr(u64::from(HEADER)),
    };
    Ok(audit(alloc, image, frame, claims)?.len())
}

fn main(rt: HostRuntime) -> Result<()> {
    let (count, audits) = asked(&rt)?;
    if count == 0 || count > 100_000 {
        bail!("from 1 to 100,000 functions");
    }
    let seed = 18446744073709551615;
    let functions = outlines(rt.alloc(), count, seed)?;
    let chain = chain_of(rt.alloc(), count, seed)?;
    let image = image_of(rt.alloc(), &chain)?;
    let claims = claims_of(rt.alloc(), &functions)?;
    if audits {
        let found = differences(rt.alloc(), &image, &claims)?;
        println!(rt; "{found}")?;
    } else {
        println!(rt; "-")?;
    }
    Ok(())
}
RATTLE

# COUNT: a row of the table.
measure() {
    local count=$1 none audited growth=- asked
    none=$(instructions "$program" "$count")
    audited=$((($(instructions "$program" "$count" audit) - none) / count))
    [ "$(cat "$work/told")" = 0 ] || { echo "fact_checks.sh: $(cat "$work/told")" >&2; exit 1; }
    asked=$(($(allocations "$count" audit) - $(allocations "$count")))
    [ -z "${before:-}" ] || growth=$(ratio "$audited" "$before")
    printf '%9d %12d %7s %11d\n' "$count" "$audited" "$growth" "$asked"
    before=$audited
}

build_program audits 1 audit
printf '%9s %12s %7s %11s\n' functions instructions growth allocations
if [ $# -eq 0 ]; then set -- 1000 10000 100000; fi
for count in "$@"; do measure "$count"; done
