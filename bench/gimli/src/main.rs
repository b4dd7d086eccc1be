//! The same work over gimli: reads a snapshot by serde_json and hex, walks its stack or delivers an
//! exception over it, and writes the report that `unwind_cli` writes: `gimli_walk deliver | walk`.
//!
//! It does what a Rust program over gimli would do to unwind one stack. A module that names its
//! header is searched by gimli's binary search, and of one that names its frame table an index of
//! ranges and offsets is made once. Rows are made in one context. Expressions aren't evaluated.
mod language;
mod memory;
mod passes;
mod report;
mod snapshot;
mod unwinding;

use snapshot::{read_snapshot, Refusal};
use std::io::{Read, Write};
use std::process::ExitCode;
use unwinding::Modules;

const MOST: u64 = 1 << 26;

fn answer(command: &str, text: Vec<u8>) -> (u8, String) {
    let snapshot = match read_snapshot(text) {
        Err(Refusal::NotJson) => return (6, String::from("not json\n")),
        Err(Refusal::Bad(field)) => return (7, format!("bad snapshot: {field}\n")),
        Ok(snapshot) => snapshot,
    };
    let memory = snapshot.memory();
    let mut modules = Modules::new(&snapshot.modules, &memory);
    let told = if command == "walk" {
        passes::walk(&snapshot, &memory, &mut modules).map(|states| report::walked(&states))
    } else {
        passes::deliver(&snapshot, &memory, &mut modules).map(|done| report::delivered(&done))
    };
    match told {
        Ok(told) => (0, told),
        Err(fault) => (8, format!("refused: {fault}\n")),
    }
}

fn main() -> ExitCode {
    let words: Vec<String> = std::env::args().skip(1).collect();
    let (number, told) = match words.as_slice() {
        [command] if command == "walk" || command == "deliver" => {
            let mut text = Vec::new();
            std::io::stdin().lock().take(MOST + 1).read_to_end(&mut text).unwrap();
            if text.len() as u64 > MOST {
                (5, String::from("too long\n"))
            } else {
                answer(command, text)
            }
        }
        _ => (2, String::from("usage: gimli_walk deliver | walk\n")),
    };
    std::io::stdout().write_all(told.as_bytes()).unwrap();
    ExitCode::from(number)
}
