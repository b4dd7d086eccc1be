#!/usr/bin/env python3
"""Compares what the crate `eh_frame` reads in the headers of real linkers with what readelf and
objdump say.

    tools/frame_headers.py

Compiles one C++ program by gcc and clang and links it by ld, gold and lld. Of each result objdump
says where .eh_frame_hdr and .eh_frame lie, and readelf the start, the end and the place of each
description. Checked is first, by reading the bytes as the LSB's section on .eh_frame_hdr says, that
the header leads to .eh_frame and lists just these descriptions, by ascending start. Then the bytes go
as tests into a copy of the crates, where `rt try --test` runs them: the crate's search of the header's
table finds each description at its first and its last address, and after it none but the next one's,
in no more counted steps than the number of entries has binary digits.

Wants gcc, clang, ld, gold, lld, readelf, objdump and rt; a linker that isn't there is passed over.
"""

import re
import shutil
import struct
import subprocess
import sys
import tempfile
from pathlib import Path

PROGRAM = """
#include <cstdio>
#include <stdexcept>
static int depth(int n) {
    if (n > 90) throw std::runtime_error("deep");
    return n < 2 ? n : depth(n - 1) + depth(n - 2);
}
struct Guard { int &n; ~Guard() { n += 1; } };
int caught(int n) {
    int k = 0;
    try { Guard g{k}; return depth(n); } catch (const std::exception &e) { std::puts(e.what()); }
    return k;
}
int main(int argc, char **) { return caught(argc); }
"""

WAYS = [(compiler, linker) for compiler in ("g++", "clang++") for linker in ("bfd", "gold", "lld")]


def run(*words):
    return subprocess.run(words, check=True, capture_output=True, text=True).stdout


def section(path, name):
    """The address and the bytes of a section, by objdump."""
    for line in run("objdump", "-h", "-w", path).splitlines():
        words = line.split()
        if len(words) > 3 and words[1] == name:
            size, address, offset = (int(words[i], 16) for i in (2, 3, 5))
            return address, Path(path).read_bytes()[offset:offset + size]
    raise ValueError(f"{path} has no {name}")


def described(path):
    """Start, end and offset of each description in .eh_frame, by readelf."""
    text = run("readelf", "--debug-dump=frames", path)
    line = re.compile(r"^([0-9a-f]+) [0-9a-f]+ [0-9a-f]+ FDE cie=[0-9a-f]+ pc=([0-9a-f]+)\.\.([0-9a-f]+)", re.M)
    return sorted((int(start, 16), int(end, 16), int(offset, 16)) for offset, start, end in line.findall(text))


def compare(path):
    """How many entries the header has, where they are those that readelf says."""
    header_at, header = section(path, ".eh_frame_hdr")
    frames_at, _ = section(path, ".eh_frame")
    assert header[:4] == bytes([1, 0x1B, 0x03, 0x3B]), header[:4].hex()
    leads, count = struct.unpack("<iI", header[4:12])
    assert header_at + 4 + leads == frames_at, hex(header_at + 4 + leads)
    pairs = [struct.unpack("<ii", header[12 + 8 * i:20 + 8 * i]) for i in range(count)]
    read = [(header_at + start, header_at + place) for start, place in pairs]
    told = [(start, frames_at + offset) for start, _, offset in described(path)]
    assert read == told, (read, told)
    return count


HEAD = """//! Headers that linkers wrote, and what readelf says of them.
#![tactic(auto)]

#[cfg(test)]
mod tests {
    use eh_frame::{Bases, EhFrame, EhFrameHdr, Error, Pointer};
    use memory_image::{Counted, Steps};
    use std::test::Fail;
"""

TEST = """
    #[test]
    fn NAME(rt: HostRuntime) -> Result<(), Fail> {
        let frames: [u8; FRAMES_LEN] = FRAMES;
        let header: [u8; HEADER_LEN] = HEADER;
        let parsed = EhFrameHdr::parse(&header, HEADER_AT, &Bases::default())?;
        assert_eq!(rt; parsed.eh_frame_ptr(), Pointer::Direct(FRAMES_AT));
        let table = parsed.table().unwrap();
        let frames = EhFrame::new(&frames, FRAMES_AT);
        let asked: [(u64, Result<(u64, u64), Error>); ASKED_LEN] = ASKED;
        for (pc, wanted) in asked {
            let mut steps = Steps::new(Counted { count: 0 });
            let found = match table.fde_for_address(&frames, &Bases::default(), pc, &mut steps) {
                Ok(fde) => Ok((fde.initial_address(), fde.offset())),
                Err(error) => Err(error),
            };
            assert_eq!(rt; found, wanted);
            assert!(rt; steps.ledger().count <= DIGITS);
        }
        Ok(())
    }
"""


def asked(path):
    """Addresses, and what is to be found for each."""
    told = described(path)
    starts = {start for start, _, _ in told}
    none = "Err(Error::NoUnwindInfoForAddress)"
    cases = [(told[0][0] - 1, none)]
    for start, end, offset in told:
        cases += [(pc, f"Ok(({start:#x}, {offset:#x}))") for pc in (start, end - 1)]
        cases += [(end, none)] if end not in starts else []
    return cases


def test(path):
    """The text of a test of one result."""
    header_at, header = section(path, ".eh_frame_hdr")
    frames_at, frames = section(path, ".eh_frame")
    cases = asked(path)
    words = {
        "NAME": Path(path).name.replace("+", "p").replace("-", "_"),
        "HEADER_AT": hex(header_at), "FRAMES_AT": hex(frames_at),
        "HEADER_LEN": str(len(header)), "FRAMES_LEN": str(len(frames)),
        "ASKED_LEN": str(len(cases)), "DIGITS": str(len(described(path)).bit_length()),
        "HEADER": str(list(header)), "FRAMES": str(list(frames)),
        "ASKED": "[" + ", ".join(f"({pc:#x}, {wanted})" for pc, wanted in cases) + "]",
    }
    return re.sub("|".join(sorted(words, key=len, reverse=True)), lambda m: words[m.group()], TEST)


def try_tests(folder, made):
    """Runs the crate on the results; its output where that fails."""
    top = Path(__file__).resolve().parent.parent
    copy = Path(folder, "copy")
    shutil.copytree(top / "crates", copy / "crates", ignore=shutil.ignore_patterns("out"))
    listed = (top / "crates.txt").read_text()
    (copy / "crates.txt").write_text(listed + "linked: memory_image eh_frame\n")
    shutil.copy(top / "HANDLES", copy / "HANDLES")
    source = copy / "crates" / "linked" / "src"
    source.mkdir(parents=True)
    (source / "lib.rt").write_text(HEAD + "".join(test(path) for path in made) + "}\n")
    done = subprocess.run(["rt", "try", "--test"], cwd=source.parent, capture_output=True, text=True)
    if done.returncode:
        sys.exit(done.stdout + done.stderr)
    print(f"{len(made)} headers are searched as readelf says")


def main():
    with tempfile.TemporaryDirectory() as folder:
        source = Path(folder, "program.cc")
        source.write_text(PROGRAM)
        made = []
        for compiler, linker in WAYS:
            path = str(Path(folder, f"{compiler}-{linker}"))
            try:
                run(compiler, "-O2", f"-fuse-ld={linker}", str(source), "-o", path)
            except (FileNotFoundError, subprocess.CalledProcessError):
                print(f"{compiler} with {linker}: not here")
                continue
            print(f"{compiler} with {linker}: {compare(path)} entries, as readelf says")
            made.append(path)
        try_tests(folder, made)


if __name__ == "__main__":
    main()
