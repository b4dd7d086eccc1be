#!/usr/bin/env bash
# Instructions of the registers of a frame's caller, by callgrind, for rows of one to four saved
# registers. In a copy of the repository it adds a program that leaves 10,000 frames of a stack by
# such a row, proves and builds it, and runs it.
#
#     bench/caller.sh
#
# It wants `rt` and `valgrind`, and leaves nothing behind. The image has three regions.

# shellcheck source-path=SCRIPTDIR source=common.sh
. "$(dirname "$0")/common.sh"

add_program caller_cost memory_image unwind_arch eh_frame unwinding_frames anyhow <<'RATTLE'
//! Leaves COUNT frames by a row of KIND + 1 rules: `caller_cost KIND COUNT HOW`, HOW 0 for the loop
//! alone, 1 by `step_by_row`, 2 by `write_caller` with one window.
#![tactic(auto)]

use anyhow::Result;
use eh_frame::{Bases, EhFrame, Error, RowRoom};
use memory_image::MemoryImage;
use std::alloc::{AllocError, Global};
use std::env;
use unwind_arch::x86_64::{Arch, Context};
use unwind_arch::{Register, RegisterMap};
use unwinding_frames::{Window, step_by_row, write_caller};

const TABLE_ADDRESS: u64 = 0x50_0000;

// A common information entry with the CFA at RSP + 8 and the return address below it, and four
// descriptions, which save none, one, two and three registers more.
static TABLE: [u8; 152] = [
    0x10, 0, 0, 0, 0, 0, 0, 0, 1, 0, 1, 0x78, 0x10, 0x0c, 7, 8, 0x90, 1, 0, 0, 0x1c, 0, 0, 0,
    0x18, 0, 0, 0, 0, 0x10, 0, 0, 0, 0, 0, 0, 0x10, 0, 0, 0, 0, 0, 0, 0, 0, 0, 0, 0, 0, 0, 0,
    0, 0x1c, 0, 0, 0, 0x38, 0, 0, 0, 0, 0x20, 0, 0, 0, 0, 0, 0, 0x10, 0, 0, 0, 0, 0, 0, 0,
    0x0e, 0x10, 0x83, 2, 0, 0, 0, 0, 0x1c, 0, 0, 0, 0x58, 0, 0, 0, 0, 0x30, 0, 0, 0, 0, 0, 0,
    0x10, 0, 0, 0, 0, 0, 0, 0, 0x0e, 0x18, 0x86, 2, 0x83, 3, 0, 0, 0x1c, 0, 0, 0, 0x78, 0, 0,
    0, 0, 0x40, 0, 0, 0, 0, 0, 0, 0x10, 0, 0, 0, 0, 0, 0, 0, 0x0e, 0x20, 0x8c, 2, 0x86, 3,
    0x83, 4, 0, 0, 0, 0,
];

static CODE: [u8; 64] = [0xc3; 64];

fn room<'a>(frame: &EhFrame<'a>, start: u64) -> Result<RowRoom<'a>, Error> {
    let bases = Bases::default();
    let fde = frame.fde_for_address(&bases, start)?;
    let mut room = RowRoom::new();
    fde.make_row(frame, &bases, start.wrapping_add(15), &mut room)?;
    Ok(room)
}

fn rows(room: &RowRoom<'_>, count: u32) -> u64 {
    let mut total = 0u64;
    for _ in 0..count {
        total = total.wrapping_add(room.row().saved_args_size());
    }
    total
}

fn steps(room: &RowRoom<'_>, count: u32, image: &MemoryImage<'_>, context: &mut Context) -> u64 {
    let mut total = 0u64;
    for _ in 0..count {
        if step_by_row::<Arch>(image, context, &room.row()).is_ok() {
            total = total.wrapping_add(1);
        }
    }
    total
}

fn writes(room: &RowRoom<'_>, count: u32, image: &MemoryImage<'_>, context: &mut Context) -> u64 {
    let mut total = 0u64;
    let mut stack = Window::new(image, context.get(Register(7)).unwrap_or(0));
    for _ in 0..count {
        let callee = *context;
        stack.seek(callee.get(Register(7)).unwrap_or(0));
        if write_caller::<Arch>(&stack, &callee, &room.row(), context).is_ok() {
            total = total.wrapping_add(1);
        }
    }
    total
}

fn stack_bytes(alloc: Global) -> Result<Vec<u8>, AllocError> {
    let mut stack = Vec::new(alloc);
    for number in 0..400_000u32 {
        stack.push((number % 251) as u8)?;
    }
    Ok(stack)
}

fn main(rt: HostRuntime) -> Result<()> {
    let mut kind = 0u64;
    let mut count = 0u32;
    let mut how = 0u32;
    for (place, word) in env::args(&rt)?.enumerate() {
        match place {
            1 => kind = word.parse::<u64>()?,
            2 => count = word.parse::<u32>()?,
            3 => how = word.parse::<u32>()?,
            _ => {}
        }
    }
    let frame = EhFrame::new(&TABLE, TABLE_ADDRESS);
    let room = room(&frame, kind.wrapping_add(1).wrapping_mul(0x1000))?;
    let stack = stack_bytes(rt.alloc())?;
    let mut image = MemoryImage::new(rt.alloc());
    let _table = image.add(TABLE_ADDRESS, &TABLE);
    let _code = image.add(0x40_0000, &CODE);
    let _stack = image.add(0x7fff_0000_0000, stack.as_slice());
    let mut context = Context::default();
    context.set(Register(7), 0x7fff_0000_0000);
    let total = match how {
        0 => rows(&room, count),
        1 => steps(&room, count, &image, &mut context),
        _ => writes(&room, count, &image, &mut context),
    };
    let sp = context.get(Register(7)).unwrap_or(0);
    println!(rt; "{total} {sp}")?;
    Ok(())
}
RATTLE
build_program caller_cost 0 0 0

for kind in 0 1 2 3; do
    loop=$(instructions "$program" "$kind" 10000 0)
    echo "$((kind + 1)) rules: by step_by_row $((($(instructions "$program" "$kind" 10000 1) - loop) / 10000))," \
        "by write_caller with one window $((($(instructions "$program" "$kind" 10000 2) - loop) / 10000))"
done
