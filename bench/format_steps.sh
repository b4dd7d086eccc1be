#!/usr/bin/env bash
# Instructions of a step to the caller in a PE module and in a Mach-O module of 100,000 functions each,
# by callgrind. In a copy of the repository it adds a program that makes the modules and takes COUNT
# steps from frames at pseudo-random functions, proves and builds it, and runs it with COUNT 0 and
# 1,000,000.
#
#     bench/format_steps.sh
#
# It wants `rt` and `valgrind`, and leaves nothing behind.

# shellcheck source-path=SCRIPTDIR source=common.sh
. "$(dirname "$0")/common.sh"

add_program format_steps memory_image unwind_arch eh_frame unwinding_frames format_frames anyhow <<'RATTLE'
//! Steps in a PE module and in a Mach-O module of 100,000 functions each.
#![tactic(auto)]

use anyhow::{Result, bail};
use eh_frame::RowRoom;
use format_frames::{MachoModule, PeModule, macho_step, pe_step};
use memory_image::MemoryImage;
use std::alloc::{AllocError, Global};
use std::env;
use unwind_arch::x86_64::{Context, RBP, RSP};
use unwinding_frames::Window;

const PAGES: u32 = 1_000;
const PAGE_FUNCTIONS: u16 = 100;
const FUNCTIONS: u32 = 100_000;
const PE_BASE: u64 = 0x1_4000_0000;
const MACHO_BASE: u64 = 0x1_0000_0000;

fn push_u16(bytes: &mut Vec<u8>, n: u16) -> Result<(), AllocError> {
    bytes.extend_from_slice(&n.to_le_bytes())
}

fn push_u32(bytes: &mut Vec<u8>, n: u32) -> Result<(), AllocError> {
    bytes.extend_from_slice(&n.to_le_bytes())
}

// Version 1, one global opcode, no personalities, and the pages with the sentinel.
fn push_header(bytes: &mut Vec<u8>, opcode: u32) -> Result<(), AllocError> {
    for word in [1, 28, 1, 0, 0, 32, PAGES + 1, opcode] {
        push_u32(bytes, word)?;
    }
    Ok(())
}

// Each page covers 0x10000 addresses and has 412 bytes.
fn push_pages(bytes: &mut Vec<u8>) -> Result<(), AllocError> {
    let first = 32 + 12 * (PAGES + 1);
    for page in 0..PAGES {
        push_u32(bytes, page * 0x10000)?;
        push_u32(bytes, first + page * 412)?;
        push_u32(bytes, 0)?;
    }
    push_u32(bytes, PAGES * 0x10000)?;
    push_u32(bytes, 0)?;
    push_u32(bytes, 0)
}

fn push_page(bytes: &mut Vec<u8>) -> Result<(), AllocError> {
    push_u32(bytes, 3)?;
    push_u16(bytes, 12)?;
    push_u16(bytes, PAGE_FUNCTIONS)?;
    push_u16(bytes, 12)?;
    push_u16(bytes, 0)?;
    for i in 0..PAGE_FUNCTIONS {
        push_u32(bytes, u32::from(i) * 0x200)?;
    }
    Ok(())
}

fn section(alloc: Global, opcode: u32) -> Result<Vec<u8>, AllocError> {
    let mut bytes = Vec::new(alloc);
    push_header(&mut bytes, opcode)?;
    push_pages(&mut bytes)?;
    for _ in 0..PAGES {
        push_page(&mut bytes)?;
    }
    Ok(bytes)
}

// Functions of 64 bytes from 0x1000 on, of one unwind record.
fn function_table(alloc: Global) -> Result<Vec<u8>, AllocError> {
    let mut bytes = Vec::new(alloc);
    for i in 0..FUNCTIONS {
        push_u32(&mut bytes, 0x1000 + 64 * i)?;
        push_u32(&mut bytes, 0x1040 + 64 * i)?;
        push_u32(&mut bytes, 0x200_0000)?;
    }
    Ok(bytes)
}

// The next address that is asked of a module whose functions are so far apart, in the middle of one.
fn next_address(state: &mut u32, base: u64, apart: u32, from: u32) -> u64 {
    *state = state.wrapping_mul(1_664_525).wrapping_add(1_013_904_223);
    let index = (*state >> 8) % FUNCTIONS;
    base.wrapping_add(u64::from(index.wrapping_mul(apart).wrapping_add(from)))
}

fn pe_steps(image: &MemoryImage<'_>, context: &Context, inside: u32, count: u32) -> Result<u64> {
    let mut stack = Window::new(image, context.registers[RSP]);
    let module = PeModule {
        base: PE_BASE,
        size: 0x300_0000,
        table_rva: 0x100_0000,
        table_size: 12 * FUNCTIONS,
    };
    let mut state = 1;
    let mut sum = 0u64;
    for _ in 0..count {
        let address = next_address(&mut state, PE_BASE, 64, 0x1000 + inside % 64);
        if address < PE_BASE || address - PE_BASE > 0xffff_ffff {
            bail!("outside");
        }
        sum = sum.wrapping_add(pe_step(&mut stack, &module, address, context)?.ra);
    }
    Ok(sum)
}

fn macho_steps(image: &MemoryImage<'_>, context: &Context, count: u32) -> Result<u64> {
    let mut stack = Window::new(image, context.registers[RSP]);
    let module = MachoModule {
        base: MACHO_BASE,
        size: 0x1000_0000,
        unwind_info: 0x60_0000,
        frames: None,
    };
    let mut rows = RowRoom::new();
    let mut state = 1;
    let mut sum = 0u64;
    for _ in 0..count {
        let address = next_address(&mut state, MACHO_BASE, 0x200, 0x80);
        if address < MACHO_BASE || address - MACHO_BASE > 0xffff_ffff {
            bail!("outside");
        }
        match macho_step(&mut stack, &module, address, context, &mut rows)? {
            Some(stepped) => sum = sum.wrapping_add(stepped.context.ra),
            None => bail!("end"),
        }
    }
    Ok(sum)
}

// The numbers of the command: a Mach-O opcode, or 0 for PE frames; for these how far into a function;
// and how many steps.
fn numbers(rt: &HostRuntime) -> Result<(u32, u32, u32)> {
    let mut words = env::args(rt)?;
    let _name = words.next();
    let mut numbers = [0u32; 3];
    for i in 0..3 {
        match words.next() {
            Some(word) => numbers[i] = word.as_str().parse::<u32>()?,
            None => bail!("three numbers"),
        }
    }
    Ok((numbers[0], numbers[1], numbers[2]))
}

fn main(rt: HostRuntime) -> Result<()> {
    let (opcode, inside, count) = numbers(&rt)?;
    let code = vec![in rt.alloc(); 0x90u8; 6_400_000]?;
    let table = function_table(rt.alloc())?;
    let info = [0x01, 0x05, 0x02, 0x00, 0x05, 0x42, 0x01, 0x30];
    let section = section(rt.alloc(), opcode)?;
    let stack = [0x77; 256];
    let mut image = MemoryImage::new(rt.alloc());
    image.add(0x7000, &stack)?;
    image.add(0x60_0000, &section)?;
    image.add(PE_BASE + 0x1000, &code)?;
    image.add(PE_BASE + 0x100_0000, &table)?;
    image.add(PE_BASE + 0x200_0000, &info)?;
    let mut context = Context::default();
    context.registers[RSP] = 0x7000;
    context.registers[RBP] = 0x7040;
    let sum = if opcode == 0 {
        pe_steps(&image, &context, inside, count)?
    } else {
        macho_steps(&image, &context, count)?
    };
    println!(rt; "{sum}")?;
    Ok(())
}
RATTLE

build_program format_steps 0 31 0

cost() {
    local name=$1 opcode=$2 inside=$3
    local without with
    without=$(instructions "$program" "$opcode" "$inside" 0)
    with=$(instructions "$program" "$opcode" "$inside" 1000000)
    echo "$name: $(((with - without) / 1000000)) instructions a step"
}

cost 'PE, in a body' 0 31
cost 'PE, at a function'"'"'s start' 0 0
cost 'Mach-O, with a frame pointer' $((0x01010001)) 0
cost 'Mach-O, without one, one register' $((0x02070400)) 0
cost 'Mach-O, without one, six registers' $((0x02071800)) 0
