#!/usr/bin/env bash
# Instructions of an index of a frame table, and memory, by callgrind, massif and GNU time: what making
# it costs for each description, and what a look-up costs. In a copy of the crates it adds a program
# that makes a table of functions with four prologues, or reads the table of an ELF file, proves and
# builds it, and runs it three times for each table.
#
#     bench/indexes.sh [FILE..]
#
# With no FILE, tables are made. With some, it is their sections `.eh_frame`. Where COUNTS names a file,
# callgrind's counts of the last run that only makes an index are left there, by function
# (callgrind_annotate tells them). It wants `rt`, `valgrind`, GNU time and binutils, and leaves nothing
# else behind.

# shellcheck source-path=SCRIPTDIR source=common.sh
. "$(dirname "$0")/common.sh"

counts=${COUNTS:-/dev/null}

add_program indexes memory_image eh_frame anyhow <<'RATTLE'
//! Makes an index of a frame table and looks addresses up: `indexes WHAT FUNCTIONS` of a table that it
//! makes, or `indexes WHAT ADDRESS FILE` of one that it reads, where 0 makes or reads the table alone,
//! 1 makes its index too, and 2 looks up an address of each function as well.
#![tactic(auto)]

use anyhow::Result;
use eh_frame::{Bases, EhFrame, Prepared};
use memory_image::{NoLedger, Steps};
use std::alloc::AllocError;
use std::{env, fs};

const CODE: u32 = 0x1000_0000;
const FRAMES: u32 = 0x3000_0000;

const PLAIN: &[u8] = b"\x14\0\0\0\0\0\0\0\x01zR\0\x01\x78\x10\x01\x1b\x0c\x07\x08\x90\x01\0\0";
const LANGUAGE: &[u8] =
    b"\x1c\0\0\0\0\0\0\0\x01zPLR\0\x01\x78\x10\x07\x1b\xd5\xff\xff\x1e\x1b\x1b\x0c\x07\x08\x90\x01\0\0";

fn push_u32(bytes: &mut Vec<u8>, word: u32) -> Result<(), AllocError> {
    bytes.extend_from_slice(&word.to_le_bytes())
}

fn program_of(number: u32) -> &'static [u8] {
    match number.wrapping_mul(2_654_435_761) >> 30 {
        0 => b"\x41\x0e\x10\x83\x02\0\0\0\0\0\0",
        1 => b"\x41\x0e\x10\x83\x02\x44\x0e\x20\0\0\0",
        2 => b"\x41\x0e\x10\x86\x02\x43\x0d\x06\0\0\0",
        _ => b"\x41\x0e\x10\x86\x02\x43\x0d\x06\x41\x83\x03",
    }
}

fn push_frames(bytes: &mut Vec<u8>, count: u32) -> Result<(), AllocError> {
    bytes.extend_from_slice(PLAIN)?;
    bytes.extend_from_slice(LANGUAGE)?;
    for number in 0..count {
        let offset = number.wrapping_mul(32).wrapping_add(56);
        push_u32(bytes, 28)?;
        let common = if number % 4 == 3 { 24 } else { 0 };
        push_u32(bytes, offset.wrapping_add(4).wrapping_sub(common))?;
        let place = FRAMES.wrapping_add(offset).wrapping_add(8);
        push_u32(bytes, CODE.wrapping_add(number.wrapping_mul(64)).wrapping_sub(place))?;
        push_u32(bytes, 64)?;
        bytes.extend_from_slice(&[4])?;
        push_u32(bytes, 0x1000_0000)?;
        bytes.extend_from_slice(program_of(number))?;
    }
    push_u32(bytes, 0)
}

fn looked_up(index: &Prepared, made: bool) -> u64 {
    let mut steps = Steps::new(NoLedger);
    let mut found = 0u64;
    let count = index.len();
    for pass in 0..count {
        let number = pass.wrapping_mul(7_368_787).checked_rem(count).unwrap_or(0);
        let pc = if made {
            (CODE as u64).wrapping_add(number.wrapping_mul(64)).wrapping_add(31)
        } else if number < count {
            index.range(number, &mut steps).0
        } else {
            0
        };
        if let Some(frame) = index.frame(pc, &mut steps) {
            if let Ok(row) = frame.row() {
                found = found.wrapping_add(row.saved_args_size().wrapping_add(1));
            }
        }
    }
    found
}

fn main(rt: HostRuntime) -> Result<()> {
    let mut numbers = [0u64; 2];
    let mut place = 0usize;
    let mut file = String::new(rt.alloc());
    for word in env::args(&rt)? {
        if let Ok(number) = word.as_str().parse::<u64>() {
            if place < 2 {
                numbers[place] = number;
                place += 1;
            }
        } else if place == 2 {
            file.push_str(word.as_str())?;
        }
    }
    let made = file.is_empty();
    let mut bytes = Vec::new(rt.alloc());
    let mut address = FRAMES as u64;
    if made {
        push_frames(&mut bytes, (numbers[1] % 1_000_000) as u32)?;
    } else {
        bytes = fs::read(&rt, file.as_str())?;
        address = numbers[1];
    }
    let table = EhFrame::new(&bytes, address);
    if numbers[0] == 0 {
        println!(rt; "{}", bytes.len())?;
        return Ok(());
    }
    match Prepared::build(rt.alloc(), &table, &Bases::default(), 4_000_000, 40_000_000)? {
        Some(index) => {
            println!(rt; "{} {} {}", index.len(), index.rows_len(), index.rules_len())?;
            if numbers[0] == 2 {
                println!(rt; "{}", looked_up(&index, made))?;
            }
        }
        None => println!(rt; "none")?,
    }
    Ok(())
}
RATTLE

build_program indexes 2 1000

# WORD..: the bytes of heap that the index of a table takes: what the run that looks addresses up has
# while it does so, less what the run has that only makes the table.
held() {
    local what
    for what in 0 1 2; do
        valgrind --tool=massif --time-unit=i --max-snapshots=1000 \
            --massif-out-file="$work/massif-$what" "$program" "$what" "$@" >/dev/null 2>&1
    done
    python3 - "$work" <<'PYTHON'
import re
import sys


def snapshots(what: int) -> list[tuple[int, int]]:
    text = open(f"{sys.argv[1]}/massif-{what}").read()
    times, sizes = (re.findall(rf"^{word}=(\d+)$", text, re.M) for word in ("time", "mem_heap_B"))
    return [(int(time), int(size)) for time, size in zip(times, sizes)]


table = max(size for _, size in snapshots(0))
made = snapshots(1)[-1][0]
print(max(size for time, size in snapshots(2) if time >= made) - table)
PYTHON
}

# NAME WORD..: a line of a table.
measure() {
    local name=$1 table made found descriptions rows rules
    shift
    table=$(instructions "$program" 0 "$@")
    found=$(instructions "$program" 2 "$@")
    made=$(instructions "$program" 1 "$@")
    read -r descriptions rows rules <"$work/told"
    printf '%-14s %12d %8d %9d %14d %9d %6d %13d %13d\n' "$name" "$descriptions" "$rows" "$rules" \
        "$(((made - table) / descriptions))" "$(((found - made) / descriptions))" \
        "$(($(held "$@") / descriptions))" "$(peak "$program" 0 "$@")" "$(peak "$program" 1 "$@")"
}

printf '%-14s %12s %8s %9s %14s %9s %6s %13s %13s\n' table descriptions rows rules a-description \
    a-look-up bytes table-peak-kB index-peak-kB
if [ $# -eq 0 ]; then
    for functions in 1000 10000 100000; do measure "$functions" "$functions"; done
fi
for file in "$@"; do
    address=$(objdump -h -j .eh_frame "$file" | sed -n 's/.* \.eh_frame  *[0-9a-f]* *\([0-9a-f]*\) .*/\1/p')
    objcopy -O binary --only-section=.eh_frame "$file" "$work/table"
    name=${file##*/}
    measure "${name%.so*}" $((16#$address)) "$work/table"
done
cp "$work/callgrind" "$counts"
