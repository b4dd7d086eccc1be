#!/usr/bin/env bash
# Instructions of an evaluation of an expression and of each kind of its operations, by callgrind. In
# a copy of the repository it adds a program that evaluates an expression so many times, proves and
# builds it, and runs it with several expressions.
#
#     bench/expressions.sh
#
# It wants `rt` and `valgrind`, and leaves nothing behind.

# shellcheck source-path=SCRIPTDIR source=common.sh
. "$(dirname "$0")/common.sh"

add_program expression_cost memory_image frame_expressions unwind_arch anyhow hex <<'RATTLE'
//! Evaluates an expression so many times: `expression_cost HEX COUNT`.
#![tactic(auto)]

use anyhow::Result;
use frame_expressions::evaluate;
use memory_image::MemoryImage;
use std::env;
use unwind_arch::x86_64::Context;

static WORDS: [u8; 64] = [7; 64];

fn evaluations(
    expression: &[u8],
    count: u32,
    image: &MemoryImage<'_>,
    context: &Context,
) -> u64 {
    let mut total = 0u64;
    for pass in 0..count {
        if let Ok(value) = evaluate(expression, Some(0x7000), context, image) {
            total = total.wrapping_add(value).wrapping_add(pass as u64);
        }
    }
    total
}

fn main(rt: HostRuntime) -> Result<()> {
    let mut expression = Vec::new(rt.alloc());
    let mut count = 0u32;
    for (place, word) in env::args(&rt)?.enumerate() {
        if place == 1 {
            expression.extend_from_slice(&hex::decode(rt.alloc(), word.as_str())?)?;
        } else if let Ok(number) = word.parse::<u32>() {
            count = number;
        }
    }
    let mut image = MemoryImage::new(rt.alloc());
    let _added = image.add(0x7000, &WORDS);
    let context = Context::default();
    let told = evaluations(&expression, count, &image, &context);
    println!(rt; "{told}")?;
    Ok(())
}
RATTLE
build_program expression_cost 96 0

# Instructions of 100 evaluations of an expression of so many turns of these bytes.
evaluated() {
    local bytes
    bytes=$(printf "$1%.0s" $(seq "$2"))
    echo $(($(instructions "$program" "$bytes" 100) - $(instructions "$program" "$bytes" 0)))
}

# What a turn costs, between 10 of them and 50.
told() {
    echo "$1: $((($(evaluated "$2" 50) - $(evaluated "$2" 10)) / 4000)) instructions"
}

echo "an evaluation of one nop: $(($(evaluated 96 1) / 100)) instructions"
echo "the CFA plus 8: $(($(evaluated 2308 1) / 100)) instructions"
echo "the CFA of a procedure linkage table: $(($(evaluated 770880003f1a3b2a332422 1) / 100)) instructions"
told 'nop' 96
told 'lit1' 31
told 'const1u' 0805
told 'constu of three bytes' 10808001
told 'plus_uconst' 2308
told 'lit1 and plus' 3122
told 'lit1 and div' 311b
told 'lit0 and bra' 30280000
told 'skip' 2f0000
told 'breg0 and drop' 700013
told 'dup, deref and drop' 120613
told 'dup, deref_size 1 and drop' 12940113
told 'dup, deref_size 4 and drop' 12940413
