//! The snapshot, checked as `unwind_cli` checks it.
use crate::memory::Memory;
use crate::unwinding::Registers;
use serde_json::Value;
use std::collections::BTreeMap;

struct Region {
    address: u64,
    bytes: Vec<u8>,
}

#[derive(Clone, Copy)]
pub enum Tables {
    EhFrame(u64),
    EhFrameHdr(u64),
}

pub struct Module {
    pub end: u64,
    pub tables: Tables,
    pub text_base: Option<u64>,
}

pub struct Snapshot {
    regions: Vec<Region>,
    /// By their starts.
    pub modules: BTreeMap<u64, Module>,
    pub start: Registers,
    pub exception: u64,
    pub resumes: BTreeMap<u64, u64>,
    pub limit: u32,
    pub interrupted: bool,
}

pub enum Refusal {
    NotJson,
    Bad(&'static str),
}

const NAMES: [&str; 16] = [
    "rax", "rdx", "rcx", "rbx", "rsi", "rdi", "rbp", "rsp", "r8", "r9", "r10", "r11", "r12",
    "r13", "r14", "r15",
];

fn word(value: &Value) -> Option<u64> {
    let digits = value.as_str()?.strip_prefix("0x")?;
    if digits.is_empty() || digits.len() > 16 || digits.starts_with('+') {
        return None;
    }
    u64::from_str_radix(digits, 16).ok()
}

fn word_or_zero(value: &Value, key: &str) -> Option<u64> {
    value.get(key).map_or(Some(0), word)
}

fn has_float(value: &Value) -> bool {
    match value {
        Value::Number(number) => number.is_f64(),
        Value::Array(items) => items.iter().any(has_float),
        Value::Object(members) => members.values().any(has_float),
        _ => false,
    }
}

fn memory(regions: &[Region]) -> Option<Memory<'_>> {
    let mut memory = Memory::new();
    for region in regions {
        memory.add(region.address, &region.bytes)?;
    }
    Some(memory)
}

fn regions(value: &Value) -> Option<Vec<Region>> {
    let mut regions = Vec::new();
    for item in value.get("regions")?.as_array()? {
        let bytes = hex::decode(item.get("bytes")?.as_str()?).ok()?;
        let address = word(item.get("address")?)?;
        regions.push(Region { address, bytes });
    }
    memory(&regions)?;
    Some(regions)
}

fn modules(value: &Value) -> Option<BTreeMap<u64, Module>> {
    let mut modules: BTreeMap<u64, Module> = BTreeMap::new();
    for item in value.get("modules")?.as_array()? {
        if item.get("kind")?.as_str()? != "elf" {
            return None;
        }
        let (start, end) = (word(item.get("start")?)?, word(item.get("end")?)?);
        let tables = match (item.get("eh_frame"), item.get("eh_frame_hdr")) {
            (Some(table), None) => Tables::EhFrame(word(table)?),
            (None, Some(header)) => Tables::EhFrameHdr(word(header)?),
            _ => return None,
        };
        let text_base = match item.get("text_base") {
            Some(base) => Some(word(base)?),
            None => None,
        };
        let below = modules.range(..end).next_back();
        if end <= start || below.is_some_and(|(_, module)| start < module.end) {
            return None;
        }
        modules.insert(start, Module { end, tables, text_base });
    }
    Some(modules)
}

fn start(value: &Value) -> Option<Registers> {
    let start = value.get("start")?;
    let ra = word(start.get("rip")?)?;
    word(start.get("rsp")?)?;
    let mut general = [0; 16];
    for (register, name) in general.iter_mut().zip(NAMES) {
        *register = word_or_zero(start, name)?;
    }
    Some(Registers { general, ra })
}

fn resumes(value: &Value) -> Option<BTreeMap<u64, u64>> {
    let mut resumes = BTreeMap::new();
    if let Some(found) = value.get("resumes") {
        for item in found.as_array()? {
            match item.as_array()?.as_slice() {
                [pad, ret] => {
                    let (pad, ret) = (word(pad)?, word(ret)?);
                    resumes.entry(pad).or_insert(ret);
                }
                _ => return None,
            }
        }
    }
    Some(resumes)
}

fn read(value: &Value) -> Result<Snapshot, &'static str> {
    if has_float(value) || !value.is_object() {
        return Err("object");
    }
    let regions = regions(value).ok_or("regions")?;
    let modules = modules(value).ok_or("modules")?;
    let start = start(value).ok_or("start")?;
    let exception = word_or_zero(value, "exception").ok_or("exception")?;
    word_or_zero(value, "class").ok_or("class")?;
    let resumes = resumes(value).ok_or("resumes")?;
    let limit = value.get("limit").and_then(Value::as_u64).ok_or("limit")?;
    if !(1..=1_048_576).contains(&limit) {
        return Err("limit");
    }
    let interrupted = match value.get("interrupted") {
        Some(found) => found.as_bool().ok_or("interrupted")?,
        None => false,
    };
    Ok(Snapshot {
        regions,
        modules,
        start,
        exception,
        resumes,
        limit: limit as u32,
        interrupted,
    })
}

/// The snapshot of a text; the text and its JSON value are let go before it is answered.
#[inline(never)]
pub fn read_snapshot(text: Vec<u8>) -> Result<Snapshot, Refusal> {
    let value = serde_json::from_slice(&text).map_err(|_| Refusal::NotJson)?;
    drop(text);
    read(&value).map_err(Refusal::Bad)
}

impl Snapshot {
    pub fn memory(&self) -> Memory<'_> {
        memory(&self.regions).unwrap()
    }
}
