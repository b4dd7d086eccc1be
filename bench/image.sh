#!/usr/bin/env bash
# Measures an image of memory: instructions (callgrind) of adding regions and of reading, and of
# laying a region over an image.
#
#     bench/image.sh
#
# Makes a program over a copy of crates/memory_image, builds it by `rt run`, and runs it under
# valgrind. A read includes the loop around it, some 14 instructions.

# shellcheck source-path=SCRIPTDIR source=common.sh
. "$(dirname "$0")/common.sh"

add_program image memory_image <<'PROGRAM'
//! Adds regions of one byte in an order, and reads each so many times: `image ORDER COUNT PASSES BYTES`.
#![tactic(auto)]

use memory_image::MemoryImage;
use std::env;
use std::process::ExitCode;

#[derive(Clone, Copy, PartialEq, Eq)]
enum Order {
    Ascending,
    Descending,
    Shuffled,
}

/// The address of the region with this number.
fn address(order: Order, number: u64, count: u64, width: u64) -> u64 {
    let place = match order {
        Order::Ascending => number,
        Order::Descending => count.wrapping_sub(1).wrapping_sub(number),
        Order::Shuffled => match number.wrapping_mul(7_368_787).checked_rem(count) {
            Some(place) => place,
            None => 0,
        },
    };
    place.wrapping_mul(width).wrapping_add(0x1000)
}

fn run(rt: HostRuntime, order: Order, count: u64, passes: u64, width: u64, bytes: &[u8]) -> (u64, u64) {
    let mut image = MemoryImage::new(rt.alloc());
    let mut refused = 0u64;
    for number in 0..count {
        if image.add(address(order, number, count, width), bytes).is_err() {
            refused = refused.wrapping_add(1);
        }
    }
    let mut total = 0u64;
    for _ in 0..passes {
        for number in 0..count {
            let at = address(Order::Shuffled, number, count, width);
            let read = if bytes.len() < 8 {
                image.byte(at).map(u64::from)
            } else {
                image.read_u64(at)
            };
            total = total.wrapping_add(read.unwrap_or(0));
        }
    }
    (refused, total)
}

fn main(rt: HostRuntime) -> ExitCode {
    let mut order = Order::Ascending;
    let mut numbers = [0u64; 3];
    let mut place = 0usize;
    let Ok(words) = env::args(&rt) else {
        return ExitCode::from(2);
    };
    for word in words {
        match word.as_str() {
            "ascending" => order = Order::Ascending,
            "descending" => order = Order::Descending,
            "shuffled" => order = Order::Shuffled,
            other => {
                if let Ok(number) = other.parse::<u64>() {
                    if place < 3 {
                        numbers[place] = number;
                        place += 1;
                    }
                }
            }
        }
    }
    let bytes = [7u8; 8];
    let size = if numbers[2] == 8 { 8 } else { 1 };
    let (refused, total) = run(rt, order, numbers[0], numbers[1], 16, &bytes[..size]);
    match println!(rt; "refused {refused} total {total}") {
        Ok(()) => ExitCode::from(0),
        Err(_) => ExitCode::from(1),
    }
}
PROGRAM
build_program image ascending 0 0 1

base=$(instructions "$program" ascending 0 0 1)
for order in ascending descending shuffled; do
    adds=$(instructions "$program" "$order" 1000000 0 1)
    all=$(instructions "$program" "$order" 1000000 1 1)
    echo "$order: 1,000,000 adds $adds, adds and one read of each $all;" \
        "an add $(((adds - base) / 1000000)), a read $(((all - adds) / 1000000))"
done
for regions in 1 100 10000; do
    for bytes in 1 8; do
        passes=$((1000000 / regions))
        adds=$(instructions "$program" ascending "$regions" 0 "$bytes")
        all=$(instructions "$program" ascending "$regions" "$passes" "$bytes")
        echo "$regions regions of $bytes bytes: a read $(((all - adds) / (regions * passes)))"
    done
done

add_program over memory_image <<'PROGRAM'
//! Reads words in an image of regions, and in one with a region more: `over WHAT REGIONS COUNT`.
#![tactic(auto)]

use memory_image::MemoryImage;
use std::env;
use std::process::ExitCode;

const STACK: u64 = 0x7fff_0000_0000;

fn filled(rt: &HostRuntime, regions: u64) -> MemoryImage<'static> {
    let mut image: MemoryImage<'static> = MemoryImage::new(rt.alloc());
    for number in 0..regions {
        let _ = image.add(number.wrapping_mul(4096).wrapping_add(0x1000), &[7; 64]);
    }
    image
}

fn reads(image: &MemoryImage<'_>, place: u64, count: u64) -> u64 {
    let mut total = 0u64;
    for _ in 0..count {
        total = total.wrapping_add(image.read_u64(place).unwrap_or(0));
    }
    total
}

fn reads_over(image: &MemoryImage<'_>, stack: &[u8], place: u64, count: u64) -> u64 {
    match MemoryImage::over(&*image, STACK, stack) {
        Ok(over) => reads(&over, place, count),
        Err(_) => 0,
    }
}

/// Lays a stack over the image for each read.
fn samples(image: &MemoryImage<'_>, stack: &[u8], count: u64) -> u64 {
    let mut total = 0u64;
    for _ in 0..count {
        total = total.wrapping_add(reads_over(&*image, stack, STACK + 8, 1));
    }
    total
}

fn main(rt: HostRuntime) -> ExitCode {
    let mut numbers = [0u64; 3];
    let mut place = 0usize;
    let Ok(words) = env::args(&rt) else {
        return ExitCode::from(2);
    };
    for word in words {
        if let Ok(number) = word.as_str().parse::<u64>() {
            if place < 3 {
                numbers[place] = number;
                place += 1;
            }
        }
    }
    let image = filled(&rt, numbers[1]);
    let stack = [9u8; 64];
    let total = match numbers[0] {
        0 => reads(&image, 0x1000, numbers[2]),
        1 => reads_over(&image, &stack, 0x1000, numbers[2]),
        2 => reads_over(&image, &stack, STACK + 8, numbers[2]),
        _ => samples(&image, &stack, numbers[2]),
    };
    match println!(rt; "total {total}") {
        Ok(()) => ExitCode::from(0),
        Err(_) => ExitCode::from(1),
    }
}
PROGRAM
build_program over 0 1 1

names=("a read" "below a region" "in the region" "laid over for each read")
for regions in 10 1000; do
    for what in 0 1 2 3; do
        few=$(instructions "$program" "$what" "$regions" 1000)
        many=$(instructions "$program" "$what" "$regions" 11000)
        echo "$regions regions, ${names[$what]}: $(((many - few) / 10000))"
    done
done
