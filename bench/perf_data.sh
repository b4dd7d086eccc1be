#!/usr/bin/env bash
# Prints the instructions that `perf_data` takes for a sample of a perf.data file, by callgrind.
#
#   perf_data.sh [SAMPLES] [STACK]       10,000 samples with 8,192 bytes of stack each, all of them copied
#
# The file is made here: one event as `perf record --call-graph dwarf` has it, a mapping, and the samples. A program over
# the crate reads it, once with no records and once with all of them and each one's registers by their columns; the line
# has the difference for each sample. With no difference for the bytes of the stacks the second line, of samples with 64
# bytes of stack, has the same number.
# shellcheck source=bench/common.sh
. "$(dirname "$0")/common.sh"
samples=${1:-10000}
stack=${2:-8192}

# FILE STACK: makes the file.
make_file() {
    python3 - "$1" "$samples" "$2" <<'EOF'
import struct
import sys

path, samples, stack = sys.argv[1], int(sys.argv[2]), int(sys.argv[3])
MASK = 0xFF0FFF
FIELDS = 0x1 | 0x2 | 0x4 | 0x20 | 0x100 | 0x1000 | 0x2000
attribute = struct.pack("<IIQQQQQ", 1, 96, 0, 250000, FIELDS, 0, 0).ljust(80, b"\0") + struct.pack("<QII", MASK, stack, 0)
attribute += bytes(16)


def framed(kind, misc, body):
    return struct.pack("<IHH", kind, misc, 8 + len(body)) + body


def sample(i):
    words = struct.pack("<QIIQQQ", 0x401000 + i % 4096, 7, 8, i, 250000, 0)
    registers = struct.pack("<Q20Q", 2, *range(20))
    return framed(9, 2, words + registers + struct.pack("<Q", stack) + bytes(stack) + struct.pack("<Q", stack))


start = 104 + len(attribute)
mapping = framed(10, 2, struct.pack("<IIQQQIIQQII", 7, 7, 0x401000, 0x1000, 0x1000, 0, 0, 0, 0, 5, 2) + b"a.out\0\0\0")
one = sample(0)
header = struct.pack("<8sQQQQQQ", b"PERFILE2", 104, len(attribute), 104, len(attribute), start, len(mapping) + samples * len(one))
with open(path, "wb") as file:
    file.write(header.ljust(104, b"\0") + attribute + mapping)
    for i in range(samples):
        file.write(sample(i))
EOF
}

add_program samples perf_data anyhow <<'RATTLE'
//! Reads a perf.data file, and prints how many samples it has and a sum of what they say.
#![tactic(auto)]

use anyhow::Result;
use perf_data::{PerfFile, Record};
use std::{env, fs};

fn add_samples(bytes: &[u8]) -> (u64, u64) {
    let (mut count, mut sum): (u64, u64) = (0, 0);
    if let Ok(file) = PerfFile::parse(bytes) {
        for item in file.records() {
            if let Ok(Record::Sample(sample)) = item {
                count = count.wrapping_add(1);
                sum = sum.wrapping_add(sample.stack.len() as u64);
                if let Some(registers) = sample.registers {
                    let context = registers.context();
                    for word in &context.registers {
                        sum = sum.wrapping_add(*word);
                    }
                    sum = sum.wrapping_add(context.ra);
                }
            }
        }
    }
    (count, sum)
}

fn main(rt: HostRuntime) -> Result<()> {
    let mut words = env::args(&rt)?.skip(1);
    let (Some(name), Some(which)) = (words.next(), words.next()) else {
        return Ok(());
    };
    let bytes = fs::read(&rt, name.as_str())?;
    if which.as_str() == "all" {
        let (count, sum) = add_samples(&bytes);
        println!(rt; "{count} {sum}")?;
    }
    Ok(())
}
RATTLE
make_file "$work/few" 64
build_program samples "$work/few" all
for size in "$stack" 64; do
    make_file "$work/profile" "$size"
    none=$(instructions "$program" "$work/profile" none)
    all=$(instructions "$program" "$work/profile" all)
    printf '%d samples with %d bytes of stack: %d instructions a sample (%s)\n' \
        "$samples" "$size" $(((all - none) / samples)) "$(cat "$work/told")"
done
