//! Language tables as compilers write them: landing pads count from the function's start, and call
//! sites are in LEB128. A table of another form ends the program.
use crate::memory::Memory;
use crate::unwinding::{Fault, Fde, State};
use gimli::{EndianSlice, LittleEndian, Pointer, Reader};

#[derive(Clone, Copy)]
pub enum Action {
    Nothing,
    Cleanup(u64),
    Catch(u64),
    Terminate,
}

const ABSENT: u8 = 0xFF;
const ULEB128: u8 = 1;

fn target(memory: &Memory<'_>, pointer: Pointer) -> Result<u64, Fault> {
    match pointer {
        Pointer::Direct(address) => Ok(address),
        Pointer::Indirect(cell) => memory.read_u64(cell).ok_or(Fault::Unmapped(cell)),
    }
}

fn in_table(table: &[u8], start: u64, address: u64) -> gimli::Result<Action> {
    let mut input = EndianSlice::new(table, LittleEndian);
    if input.read_u8()? != ABSENT {
        return Ok(Action::Terminate);
    }
    if input.read_u8()? != ABSENT {
        input.read_uleb128()?;
    }
    if input.read_u8()? != ULEB128 {
        return Ok(Action::Terminate);
    }
    let size = input.read_uleb128()? as usize;
    let mut sites = input.split(size)?;
    while !sites.is_empty() {
        let from = start.wrapping_add(sites.read_uleb128()?);
        let to = from.wrapping_add(sites.read_uleb128()?);
        let pad = sites.read_uleb128()?;
        let index = sites.read_uleb128()?;
        if address < from {
            return Ok(Action::Terminate);
        }
        if address < to {
            let entry = start.wrapping_add(pad);
            if pad == 0 {
                return Ok(Action::Nothing);
            }
            if index == 0 {
                return Ok(Action::Cleanup(entry));
            }
            input.skip(index as usize - 1)?;
            return Ok(match input.read_sleb128()? {
                0 => Action::Cleanup(entry),
                _ => Action::Catch(entry),
            });
        }
    }
    Ok(Action::Terminate)
}

/// What the language of a state's function asks.
pub fn asked(memory: &Memory<'_>, state: &State, fde: &Fde<'_>) -> Result<Action, Fault> {
    let Some(personality) = fde.personality() else {
        return Ok(Action::Nothing);
    };
    target(memory, personality)?;
    let Some(table) = fde.lsda() else {
        return Ok(Action::Nothing);
    };
    let Ok(table) = target(memory, table) else {
        return Ok(Action::Terminate);
    };
    if table == 0 {
        return Ok(Action::Nothing);
    }
    let bytes = memory.from(table).unwrap_or(&[]);
    Ok(in_table(bytes, fde.initial_address(), state.address()).unwrap_or(Action::Terminate))
}
