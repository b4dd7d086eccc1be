// The same look-ups over the same section in plain Rust, with a bounds check at each read:
//     rustc --edition 2021 -C opt-level=3 bench/macho_lookup_plain.rs -o plain && ./plain PAGES COUNT
use std::env;
fn u32_at(b: &[u8], i: usize) -> Option<u32> {
    Some(u32::from_le_bytes(
        b.get(i..i.checked_add(4)?)?.try_into().ok()?,
    ))
}
fn u16_at(b: &[u8], i: usize) -> Option<u16> {
    Some(u16::from_le_bytes(
        b.get(i..i.checked_add(2)?)?.try_into().ok()?,
    ))
}
fn boundary(n: usize, key: impl Fn(usize) -> u32, p: u32) -> Option<usize> {
    let (mut low, mut high) = (0, n);
    while low < high {
        let m = low + (high - low) / 2;
        if key(m) <= p {
            low = m + 1
        } else {
            high = m
        }
    }
    low.checked_sub(1)
}
struct Info<'a> {
    bytes: &'a [u8],
    global: &'a [u8],
    pages: &'a [u8],
}
fn parse(bytes: &[u8]) -> Option<Info<'_>> {
    let (go, gn, po, pn) = (
        u32_at(bytes, 4)? as usize,
        u32_at(bytes, 8)? as usize,
        u32_at(bytes, 20)? as usize,
        u32_at(bytes, 24)? as usize,
    );
    Some(Info {
        bytes,
        global: bytes.get(go..go + 4 * gn)?,
        pages: bytes.get(po..po + 12 * pn)?,
    })
}
#[inline(never)]
fn lookup(info: &Info, pc: u32) -> Option<(u32, u32, u32)> {
    let key = |i: usize| u32_at(info.pages, 12 * i).unwrap();
    let n = info.pages.len() / 12;
    let i = boundary(n, key, pc)?;
    if i + 1 >= n {
        return None;
    }
    let first = key(i);
    let next = key(i + 1);
    let o = u32_at(info.pages, 12 * i + 4)? as usize;
    match u32_at(info.bytes, o)? {
        3 => {
            let (fo, fl) = (
                u16_at(info.bytes, o + 4)? as usize,
                u16_at(info.bytes, o + 6)? as usize,
            );
            let fs = info.bytes.get(o + fo..o + fo + 4 * fl)?;
            let k = |i: usize| u32_at(fs, 4 * i).unwrap() & 0xffffff;
            let j = boundary(fl, k, pc - first)?;
            let start = first.checked_add(k(j))?;
            let end = if j + 1 < fl {
                first.checked_add(k(j + 1))?
            } else {
                next
            };
            let op = (u32_at(fs, 4 * j)? >> 24) as usize;
            Some((start, end, u32_at(info.global, 4 * op)?))
        }
        _ => None,
    }
}
fn main() {
    let pages: u32 = env::args().nth(1).unwrap().parse().unwrap();
    let count: u32 = env::args().nth(2).unwrap().parse().unwrap();
    let mut b = Vec::new();
    for w in [1u32, 28, 1, 0, 0, 32, pages + 1, 0x02010000] {
        b.extend_from_slice(&w.to_le_bytes());
    }
    let first = 32 + 12 * (pages + 1);
    for p in 0..pages {
        for w in [p * 0x10000, first + p * 412, 0] {
            b.extend_from_slice(&w.to_le_bytes());
        }
    }
    for w in [pages * 0x10000, 0, 0] {
        b.extend_from_slice(&w.to_le_bytes());
    }
    for _ in 0..pages {
        b.extend_from_slice(&3u32.to_le_bytes());
        for h in [12u16, 100, 12, 0] {
            b.extend_from_slice(&h.to_le_bytes());
        }
        for i in 0..100u32 {
            b.extend_from_slice(&(i * 0x200).to_le_bytes());
        }
    }
    let info = parse(&b).unwrap();
    let (mut s, mut t) = (1u32, 0u32);
    for _ in 0..count {
        s = s.wrapping_mul(1664525).wrapping_add(1013904223);
        if let Some(f) = lookup(&info, (s >> 8) % (pages * 0x10000)) {
            t = t.wrapping_add(f.0);
        }
    }
    println!("{t}");
}
