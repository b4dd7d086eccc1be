#!/usr/bin/env bash
# Instructions of a scan of a frame table for each description that it passes, of the row of a
# function that gcc compiled, and of making and copying lists as a row holds them, by callgrind. In a
# copy of the repository it adds a program that does these, proves and builds it, and runs it with
# several counts.
#
#     bench/call_frames.sh [FILE]
#
# With FILE, callgrind's counts of the rows are left there, by function (callgrind_annotate tells
# them). It wants `rt` and `valgrind`, and leaves nothing else behind.

# shellcheck source-path=SCRIPTDIR source=common.sh
. "$(dirname "$0")/common.sh"

counts=${1:-/dev/null}

add_program call_frames eh_frame arrayvec anyhow <<'RATTLE'
//! Scans a frame table, makes a row, or makes or copies a list of rules:
//! `call_frames scan|row|room|new|cleared|clone|extend DESCRIPTIONS PASSES`.
#![tactic(auto)]

use anyhow::Result;
use arrayvec::ArrayVec;
use eh_frame::{Bases, EhFrame, Error, Register, RegisterRule, RowRoom};
use std::alloc::AllocError;
use std::env;

const TABLE_ADDRESS: u64 = 0x50_0000;

// What `gcc -O2` makes of a function of 62 bytes that saves RBP and RBX and has two ends, the
// first inside a remembered state: the common information entry and the description.
static FUNCTION: [u8; 80] = [
    0x14, 0, 0, 0, 0, 0, 0, 0, 0x01, 0x7a, 0x52, 0, 0x01, 0x78, 0x10, 0x01, 0x1b, 0x0c, 0x07, 0x08,
    0x90, 0x01, 0, 0, 0x34, 0, 0, 0, 0x1c, 0, 0, 0, 0xe0, 0x1f, 0xf0, 0xff, 0x3e, 0, 0, 0, 0, 0x41,
    0x0e, 0x10, 0x86, 0x02, 0x43, 0x0e, 0x18, 0x83, 0x03, 0x46, 0x0e, 0x40, 0x50, 0x0a, 0x0e, 0x18,
    0x44, 0x0e, 0x10, 0x41, 0x0e, 0x08, 0x41, 0x0b, 0x58, 0x0e, 0x18, 0x44, 0x0e, 0x10, 0x41, 0x0e,
    0x08, 0, 0, 0, 0, 0,
];

// The first and the last address of the function.
const START: u64 = 0x40_2000;
const LAST: u64 = 0x40_203d;

fn push_u32(bytes: &mut Vec<u8>, word: u32) -> Result<(), AllocError> {
    bytes.extend_from_slice(&word.to_le_bytes())
}

// After the function so many descriptions of functions that push RBX, each at an address that lies
// as far after the last as its description does.
fn push_descriptions(bytes: &mut Vec<u8>, count: u32) -> Result<(), AllocError> {
    for number in 0..count {
        push_u32(bytes, 20)?;
        push_u32(bytes, number.wrapping_mul(24).wrapping_add(84))?;
        push_u32(bytes, 0x10_0000)?;
        push_u32(bytes, 16)?;
        bytes.extend_from_slice(&[0, 0x41, 0x0e, 0x10, 0x83, 0x02, 0, 0])?;
    }
    push_u32(bytes, 0)
}

fn scan(frame: &EhFrame, passes: u32) -> u64 {
    let bases = Bases::default();
    let mut found = 0u64;
    for pass in 0..passes {
        if frame.fde_for_address(&bases, 0x1000 + pass as u64).is_ok() {
            found = found.wrapping_add(1);
        }
    }
    found
}

fn rows(frame: &EhFrame, passes: u32) -> Result<u64, Error> {
    let bases = Bases::default();
    let fde = frame.fde_for_address(&bases, START)?;
    let mut total = 0u64;
    for pass in 0..passes {
        let pc = if pass % 2 == 0 { LAST } else { LAST - 1 };
        let row = fde.unwind_info_for_address(frame, &bases, pc)?;
        if let Some(RegisterRule::Offset(offset)) = row.register(Register(6)) {
            total = total.wrapping_add(offset);
        }
    }
    Ok(total)
}

fn rows_in_room(frame: &EhFrame, passes: u32) -> Result<u64, Error> {
    let bases = Bases::default();
    let fde = frame.fde_for_address(&bases, START)?;
    let mut room = RowRoom::new();
    let mut total = 0u64;
    for pass in 0..passes {
        let pc = if pass % 2 == 0 { LAST } else { LAST - 1 };
        fde.make_row(frame, &bases, pc, &mut room)?;
        total = total.wrapping_add(room.row().saved_args_size()).wrapping_add(1);
    }
    Ok(total)
}

type Rules = ArrayVec<(Register, RegisterRule<'static>), 32>;

const BLANK: [(Register, RegisterRule<'static>); 32] = [(Register(0), RegisterRule::Undefined); 32];

#[inline(never)]
fn new_list() -> Rules {
    ArrayVec::new()
}

#[inline(never)]
fn cleared_list() -> Rules {
    let mut list = ArrayVec::from(BLANK);
    list.clear();
    list
}

#[inline(never)]
fn cloned_list(list: &Rules) -> Rules {
    match list.clone() {
        Ok(copy) => copy,
        Err(_) => cleared_list(),
    }
}

#[inline(never)]
fn extended_list(list: &Rules) -> Rules {
    let mut copy = cleared_list();
    let _fits = copy.try_extend_from_slice(list);
    copy
}

fn lists(task: Task, passes: u32) -> u64 {
    let mut list = cleared_list();
    for column in 0..4 {
        let _fits = list.try_push((Register(column), RegisterRule::Offset(u64::from(column))));
    }
    let mut total = 0u64;
    for _ in 0..passes {
        let made = match task {
            Task::New => new_list(),
            Task::Clone => cloned_list(&list),
            Task::Extend => extended_list(&list),
            _ => cleared_list(),
        };
        total = total.wrapping_add(made.len() as u64);
    }
    total
}

#[derive(Clone, Copy)]
enum Task {
    Scan,
    Row,
    Room,
    New,
    Cleared,
    Clone,
    Extend,
}

fn main(rt: HostRuntime) -> Result<()> {
    let mut task = Task::Row;
    let mut numbers = [0u32; 2];
    let mut place = 0usize;
    for word in env::args(&rt)? {
        match word.as_str() {
            "scan" => task = Task::Scan,
            "room" => task = Task::Room,
            "new" => task = Task::New,
            "cleared" => task = Task::Cleared,
            "clone" => task = Task::Clone,
            "extend" => task = Task::Extend,
            other => {
                if let Ok(number) = other.parse::<u32>() {
                    if place < 2 {
                        numbers[place] = number;
                        place += 1;
                    }
                }
            }
        }
    }
    let mut bytes = Vec::new(rt.alloc());
    bytes.extend_from_slice(&FUNCTION)?;
    push_descriptions(&mut bytes, numbers[0])?;
    let frame = EhFrame::new(&bytes, TABLE_ADDRESS);
    let told = match task {
        Task::Scan => scan(&frame, numbers[1]),
        Task::Row => rows(&frame, numbers[1])?,
        Task::Room => rows_in_room(&frame, numbers[1])?,
        _ => lists(task, numbers[1]),
    };
    println!(rt; "{told}")?;
    Ok(())
}
RATTLE
build_program call_frames scan 0 0

# What a scan of so many descriptions costs more than one of none.
none=$(($(instructions "$program" scan 0 1000) - $(instructions "$program" scan 0 0)))
for descriptions in 10 1000; do
    all=$(($(instructions "$program" scan "$descriptions" 1000) - $(instructions "$program" scan "$descriptions" 0)))
    echo "scan of $descriptions descriptions: $(((all - none) / (1000 * descriptions))) instructions each"
done
few=$(instructions "$program" row 0 0)
many=$(instructions "$program" row 0 10000)
cp "$work/callgrind" "$counts"
echo "row: $(((many - few) / 10000)) instructions"
few=$(instructions "$program" room 0 0)
many=$(instructions "$program" room 0 10000)
echo "row in a room: $(((many - few) / 10000)) instructions"
for kind in new cleared clone extend; do
    few=$(instructions "$program" "$kind" 0 0)
    many=$(instructions "$program" "$kind" 0 10000)
    echo "list, $kind: $(((many - few) / 10000)) instructions"
done
