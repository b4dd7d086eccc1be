#!/usr/bin/env bash
# Instructions of a look-up in a section of 1,000 compressed pages with 100 functions each, by
# callgrind. In a copy of the repository it adds a program that makes the section and looks up
# COUNT addresses, proves and builds it, and runs it with COUNT 0 and 1,000,000.
#
#     bench/macho_lookup.sh [PAGES]
#
# It wants `rt` and `valgrind`, and leaves nothing behind.

# shellcheck source-path=SCRIPTDIR source=common.sh
. "$(dirname "$0")/common.sh"

pages=${1:-1000}

sed "s/PAGES_HERE/$pages/" <<'RATTLE' | add_program macho_lookup macho_unwind_info anyhow
//! Looks up so many addresses in a section of compressed pages: `macho_lookup COUNT`.
#![tactic(auto)]

use anyhow::Result;
use macho_unwind_info::UnwindInfo;
use std::alloc::AllocError;
use std::env;

const PAGES: u32 = PAGES_HERE;
const FUNCTIONS: u16 = 100;

fn push_u16(bytes: &mut Vec<u8>, n: u16) -> Result<(), AllocError> {
    bytes.extend_from_slice(&n.to_le_bytes())
}

fn push_u32(bytes: &mut Vec<u8>, n: u32) -> Result<(), AllocError> {
    bytes.extend_from_slice(&n.to_le_bytes())
}

// Version 1, one global opcode, no personalities, and the pages with the sentinel.
fn push_header(bytes: &mut Vec<u8>) -> Result<(), AllocError> {
    for word in [1, 28, 1, 0, 0, 32, PAGES + 1, 0x0201_0000] {
        push_u32(bytes, word)?;
    }
    Ok(())
}

// Each page covers 0x10000 addresses and has 412 bytes.
fn push_pages(bytes: &mut Vec<u8>) -> Result<(), AllocError> {
    let first = 32 + 12 * (PAGES + 1);
    for page in 0..PAGES {
        push_u32(bytes, page * 0x10000)?;
        push_u32(bytes, first + page * 412)?;
        push_u32(bytes, 0)?;
    }
    push_u32(bytes, PAGES * 0x10000)?;
    push_u32(bytes, 0)?;
    push_u32(bytes, 0)
}

fn push_page(bytes: &mut Vec<u8>) -> Result<(), AllocError> {
    push_u32(bytes, 3)?;
    push_u16(bytes, 12)?;
    push_u16(bytes, FUNCTIONS)?;
    push_u16(bytes, 12)?;
    push_u16(bytes, 0)?;
    for i in 0..FUNCTIONS {
        push_u32(bytes, u32::from(i) * 0x200)?;
    }
    Ok(())
}

fn main(rt: HostRuntime) -> Result<()> {
    let mut count = 0u32;
    for word in env::args(&rt)? {
        if let Ok(number) = word.parse::<u32>() {
            count = number;
        }
    }
    let mut bytes = Vec::new(rt.alloc());
    push_header(&mut bytes)?;
    push_pages(&mut bytes)?;
    for _ in 0..PAGES {
        push_page(&mut bytes)?;
    }
    let info = UnwindInfo::parse(&bytes)?;
    let mut state = 1u32;
    let mut starts = 0u32;
    for _ in 0..count {
        state = state.wrapping_mul(1_664_525).wrapping_add(1_013_904_223);
        let pc = (state >> 8) % (PAGES * 0x10000);
        if let Some(function) = info.lookup(pc)? {
            starts = starts.wrapping_add(function.start_address);
        }
    }
    println!(rt; "{starts}")?;
    Ok(())
}
RATTLE
build_program macho_lookup 0

without=$(instructions "$program" 0)
with=$(instructions "$program" 1000000)
echo "pages $pages: $without instructions without look-ups, $with with 1000000, $(((with - without) / 1000000)) a look-up"
