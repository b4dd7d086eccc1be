//! The same work in plain Rust: reads a snapshot by serde_json and hex, pops one frame, and writes
//! the report. It checks what the proved program checks, in the same order. With the word `early`
//! it lets the text go as soon as it has the JSON value, before it decodes any bytes.
use serde_json::Value;
use std::collections::BTreeMap;
use std::fmt::Write as _;
use std::io::{Read, Write};
use std::process::ExitCode;

const MOST: u64 = 1 << 26;

struct Region {
    address: u64,
    bytes: Vec<u8>,
}

struct Snapshot {
    regions: Vec<Region>,
    modules: BTreeMap<u64, (u64, u64)>,
    registers: [u64; 16],
    ra: u64,
    resumes: BTreeMap<u64, u64>,
    limit: u32,
}

const NAMES: [&str; 16] = [
    "rax", "rdx", "rcx", "rbx", "rsi", "rdi", "rbp", "rsp", "r8", "r9", "r10", "r11", "r12",
    "r13", "r14", "r15",
];

fn word(value: &Value) -> Option<u64> {
    let digits = value.as_str()?.strip_prefix("0x")?;
    if digits.is_empty() || digits.len() > 16 || digits.starts_with('+') {
        return None;
    }
    u64::from_str_radix(digits, 16).ok()
}

fn word_or_zero(value: &Value, key: &str) -> Option<u64> {
    value.get(key).map_or(Some(0), word)
}

fn has_float(value: &Value) -> bool {
    match value {
        Value::Number(number) => number.is_f64(),
        Value::Array(items) => items.iter().any(has_float),
        Value::Object(members) => members.values().any(has_float),
        _ => false,
    }
}

/// The regions by address, where none of them overlap.
fn image(regions: &[Region]) -> Option<BTreeMap<u64, &[u8]>> {
    let mut image: BTreeMap<u64, &[u8]> = BTreeMap::new();
    for region in regions {
        let last = region.address.checked_add((region.bytes.len() as u64).checked_sub(1)?)?;
        if let Some((start, bytes)) = image.range(..=last).next_back() {
            if region.address <= start + (bytes.len() as u64 - 1) {
                return None;
            }
        }
        image.insert(region.address, &region.bytes);
    }
    Some(image)
}

fn regions(value: &Value) -> Option<Vec<Region>> {
    let mut regions = Vec::new();
    for item in value.get("regions")?.as_array()? {
        let bytes = hex::decode(item.get("bytes")?.as_str()?).ok()?;
        let address = word(item.get("address")?)?;
        regions.push(Region { address, bytes });
    }
    image(&regions)?;
    Some(regions)
}

/// The ends and frame tables of the modules by their starts, where none of them overlap.
fn modules(value: &Value) -> Option<BTreeMap<u64, (u64, u64)>> {
    let mut modules: BTreeMap<u64, (u64, u64)> = BTreeMap::new();
    for item in value.get("modules")?.as_array()? {
        if item.get("kind")?.as_str()? != "elf" {
            return None;
        }
        let (start, end) = (word(item.get("start")?)?, word(item.get("end")?)?);
        if item.get("eh_frame_hdr").is_some() || item.get("text_base").is_some() {
            return None;
        }
        let frame = word(item.get("eh_frame")?)?;
        let below = modules.range(..end).next_back();
        if end <= start || below.is_some_and(|(_, module)| start < module.0) {
            return None;
        }
        modules.insert(start, (end, frame));
    }
    Some(modules)
}

fn read(value: &Value) -> Result<Snapshot, &'static str> {
    if has_float(value) || !value.is_object() {
        return Err("object");
    }
    let regions = regions(value).ok_or("regions")?;
    let modules = modules(value).ok_or("modules")?;
    let start = value.get("start").ok_or("start")?;
    let ra = start.get("rip").and_then(word).ok_or("start")?;
    start.get("rsp").and_then(word).ok_or("start")?;
    let mut registers = [0; 16];
    for (register, name) in registers.iter_mut().zip(NAMES) {
        *register = word_or_zero(start, name).ok_or("start")?;
    }
    word_or_zero(value, "exception").ok_or("exception")?;
    word_or_zero(value, "class").ok_or("class")?;
    let mut resumes = BTreeMap::new();
    if let Some(found) = value.get("resumes") {
        for item in found.as_array().ok_or("resumes")? {
            match item.as_array().ok_or("resumes")?.as_slice() {
                [pad, ret] => {
                    let (pad, ret) = (word(pad).ok_or("resumes")?, word(ret).ok_or("resumes")?);
                    resumes.entry(pad).or_insert(ret);
                }
                _ => return Err("resumes"),
            }
        }
    }
    let limit = value.get("limit").and_then(Value::as_u64).ok_or("limit")?;
    if !(1..=1_048_576).contains(&limit) {
        return Err("limit");
    }
    if let Some(found) = value.get("interrupted") {
        found.as_bool().ok_or("interrupted")?;
    }
    Ok(Snapshot { regions, modules, registers, ra, resumes, limit: limit as u32 })
}

enum Refusal {
    NotJson,
    Bad(&'static str),
}

/// The snapshot of a text; the text and its JSON value are let go before it is answered.
fn read_snapshot(mut text: Vec<u8>, is_early: bool) -> Result<Snapshot, Refusal> {
    let value = serde_json::from_slice(&text).map_err(|_| Refusal::NotJson)?;
    if is_early {
        text = Vec::new();
    }
    let snapshot = read(&value).map_err(Refusal::Bad);
    drop(text);
    snapshot
}

fn read_u64(image: &BTreeMap<u64, &[u8]>, address: u64) -> Option<u64> {
    let (start, bytes) = image.range(..=address).next_back()?;
    let from = bytes.get((address - start) as usize..)?;
    Some(u64::from_le_bytes(from.get(..8)?.try_into().ok()?))
}

fn line(report: &mut String, index: usize, ra: u64, registers: &[u64; 16]) {
    writeln!(
        report,
        "frame {index} ra={ra:#x} sp={:#x} rbx={:#x} rbp={:#x} r12={:#x} r13={:#x} r14={:#x} r15={:#x}",
        registers[7], registers[3], registers[6], registers[12], registers[13], registers[14], registers[15]
    )
    .unwrap();
}

fn report(snapshot: &Snapshot) -> String {
    let image = image(&snapshot.regions).unwrap();
    let mut report = String::new();
    let (mut ra, mut registers) = (snapshot.ra, snapshot.registers);
    let _ = (&snapshot.modules, &snapshot.resumes);
    for index in 0..snapshot.limit as usize {
        line(&mut report, index, ra, &registers);
        if ra == 0 {
            report.push_str("outcome end of stack\n");
            return report;
        }
        let sp = registers[7];
        let (Some(rbx), Some(next)) = (read_u64(&image, sp), read_u64(&image, sp.wrapping_add(8)))
        else {
            return format!("refused: unmapped {sp:#x}\n");
        };
        registers[3] = rbx;
        registers[7] = sp.wrapping_add(16);
        ra = next;
    }
    String::from("refused: frame limit\n")
}

fn main() -> ExitCode {
    let is_early = std::env::args().any(|word| word == "early");
    let mut text = Vec::new();
    std::io::stdin().lock().take(MOST + 1).read_to_end(&mut text).unwrap();
    let (number, told) = if text.len() as u64 > MOST {
        (5, String::from("too long\n"))
    } else {
        match read_snapshot(text, is_early) {
            Err(Refusal::NotJson) => (6, String::from("not json\n")),
            Err(Refusal::Bad(field)) => (7, format!("bad snapshot: {field}\n")),
            Ok(snapshot) => (0, report(&snapshot)),
        }
    };
    std::io::stdout().write_all(told.as_bytes()).unwrap();
    ExitCode::from(number)
}
