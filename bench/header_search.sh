#!/usr/bin/env bash
# Instructions of a search for the description of an address among 10, 1,000 and 100,000, by the
# header's table and by a scan, by callgrind. In a copy of the crates it adds a program that makes
# both tables and searches COUNT addresses, proves and builds it, and runs it with two counts: a search
# is counted between them, so that the making of the tables isn't in it.
#
#     bench/header_search.sh
#
# It wants `rt` and `valgrind`, and leaves nothing behind.

# shellcheck source-path=SCRIPTDIR source=common.sh
. "$(dirname "$0")/common.sh"

add_program header_search memory_image eh_frame anyhow <<'RATTLE'
//! Searches descriptions: `header_search header|scan DESCRIPTIONS COUNT`.
#![tactic(auto)]

use anyhow::Result;
use eh_frame::{Bases, EhFrame, EhFrameHdr, HdrTable};
use memory_image::{NoLedger, Steps};
use std::alloc::AllocError;
use std::env;

// Where the functions begin, of 16 bytes each, and where the header and the frame table lie.
const CODE: u32 = 0x1000_0000;
const HEADER: u32 = 0x2000_0000;
const FRAMES: u32 = 0x3000_0000;

const COMMON: &[u8] = b"\x14\0\0\0\0\0\0\0\x01zR\0\x01\x78\x10\x01\x1b\x0c\x07\x08\x90\x01\0\0";

fn push_u32(bytes: &mut Vec<u8>, word: u32) -> Result<(), AllocError> {
    bytes.extend_from_slice(&word.to_le_bytes())
}

fn start_of(number: u32) -> u32 {
    CODE.wrapping_add(number.wrapping_mul(16))
}

fn offset_of(number: u32) -> u32 {
    number.wrapping_mul(24).wrapping_add(24)
}

// So many descriptions of functions that push RBX.
fn push_frames(bytes: &mut Vec<u8>, count: u32) -> Result<(), AllocError> {
    bytes.extend_from_slice(COMMON)?;
    for number in 0..count {
        let offset = offset_of(number);
        push_u32(bytes, 20)?;
        push_u32(bytes, offset.wrapping_add(4))?;
        let place = FRAMES.wrapping_add(offset).wrapping_add(8);
        push_u32(bytes, start_of(number).wrapping_sub(place))?;
        push_u32(bytes, 16)?;
        bytes.extend_from_slice(&[0, 0x41, 0x0e, 0x10, 0x83, 0x02, 0, 0])?;
    }
    push_u32(bytes, 0)
}

fn push_header(bytes: &mut Vec<u8>, count: u32) -> Result<(), AllocError> {
    bytes.extend_from_slice(&[1, 0x1b, 3, 0x3b])?;
    push_u32(bytes, FRAMES - HEADER - 4)?;
    push_u32(bytes, count)?;
    for number in 0..count {
        push_u32(bytes, start_of(number).wrapping_sub(HEADER))?;
        push_u32(bytes, FRAMES.wrapping_add(offset_of(number)).wrapping_sub(HEADER))?;
    }
    Ok(())
}

// An address in a function that isn't the one before.
fn address_of(pass: u32, count: u32) -> u64 {
    let number = pass.wrapping_mul(7_368_787).checked_rem(count).unwrap_or(0);
    start_of(number).wrapping_add(pass % 16) as u64
}

fn search<'a>(table: &HdrTable<'a>, frames: &EhFrame<'a>, count: u32, passes: u32) -> u64 {
    let bases = Bases::default();
    let mut steps = Steps::new(NoLedger);
    let mut found = 0u64;
    for pass in 0..passes {
        let pc = address_of(pass, count);
        if table.fde_for_address(frames, &bases, pc, &mut steps).is_ok() {
            found = found.wrapping_add(1);
        }
    }
    found
}

fn scan(frames: &EhFrame, count: u32, passes: u32) -> u64 {
    let bases = Bases::default();
    let mut found = 0u64;
    for pass in 0..passes {
        if frames.fde_for_address(&bases, address_of(pass, count)).is_ok() {
            found = found.wrapping_add(1);
        }
    }
    found
}

fn main(rt: HostRuntime) -> Result<()> {
    let mut by_header = false;
    let mut numbers = [0u32; 2];
    let mut place = 0usize;
    for word in env::args(&rt)? {
        if word.as_str() == "header" {
            by_header = true;
        }
        if let Ok(number) = word.as_str().parse::<u32>() {
            if place < 2 {
                numbers[place] = number;
                place += 1;
            }
        }
    }
    let mut frames = Vec::new(rt.alloc());
    push_frames(&mut frames, numbers[0])?;
    let mut header = Vec::new(rt.alloc());
    push_header(&mut header, numbers[0])?;
    let frames = EhFrame::new(&frames, FRAMES as u64);
    let parsed = EhFrameHdr::parse(&header, HEADER as u64, &Bases::default());
    let table = match parsed {
        Ok(header) => header.table(),
        Err(_) => None,
    };
    let found = match table {
        Some(table) if by_header => search(&table, &frames, numbers[0], numbers[1]),
        _ => scan(&frames, numbers[0], numbers[1]),
    };
    println!(rt; "{found}")?;
    Ok(())
}
RATTLE
build_program header_search header 10 10

# WORD DESCRIPTIONS FEW MANY: what a search costs.
measure() {
    few=$(instructions "$program" "$1" "$2" "$3")
    many=$(instructions "$program" "$1" "$2" "$4")
    [ "$(cat "$work/told")" = "$4" ] || { echo "$1 $2: found $(cat "$work/told") of $4" >&2; exit 1; }
    echo $(((many - few) / ($4 - $3)))
}

printf '%12s %8s %12s\n' descriptions header scan
for descriptions in 10 1000 100000; do
    printf '%12d %8d %12d\n' "$descriptions" "$(measure header "$descriptions" 100 1100)" \
        "$(measure scan "$descriptions" 4 24)"
done
