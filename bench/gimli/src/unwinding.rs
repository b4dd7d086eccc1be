//! From a frame to its caller, by gimli.
use crate::memory::Memory;
use crate::snapshot::{Module, Tables};
use gimli::{
    BaseAddresses, CfaRule, EhFrame, EhFrameHdr, EndianSlice, FrameDescriptionEntry, LittleEndian,
    ParsedEhFrameHdr, Pointer, RegisterRule, UnwindContext, UnwindSection,
};
use std::collections::BTreeMap;
use std::fmt;

type Bytes<'a> = EndianSlice<'a, LittleEndian>;
pub type Fde<'a> = FrameDescriptionEntry<Bytes<'a>>;

pub const RAX: usize = 0;
pub const RDX: usize = 1;
pub const RSP: usize = 7;
const RA: u16 = 16;

#[derive(Clone, Copy, Default)]
pub struct Registers {
    /// By their columns.
    pub general: [u64; 16],
    pub ra: u64,
}

impl Registers {
    fn get(&self, column: u16) -> Option<u64> {
        if column == RA {
            Some(self.ra)
        } else {
            self.general.get(usize::from(column)).copied()
        }
    }

    fn set(&mut self, column: u16, value: u64) -> Option<()> {
        if column == RA {
            self.ra = value;
        } else {
            *self.general.get_mut(usize::from(column))? = value;
        }
        Some(())
    }
}

/// Why a walk or a delivery is refused.
pub enum Fault {
    Unmapped(u64),
    Table(gimli::Error),
    FrameLimit,
    PassLimit,
    NoResume(u64),
}

impl fmt::Display for Fault {
    fn fmt(&self, f: &mut fmt::Formatter<'_>) -> fmt::Result {
        match self {
            Fault::Unmapped(address) => write!(f, "unmapped {address:#x}"),
            Fault::Table(error) => write!(f, "table {error:?}"),
            Fault::FrameLimit => f.write_str("frame limit"),
            Fault::PassLimit => f.write_str("pass limit"),
            Fault::NoResume(pad) => write!(f, "no resume {pad:#x}"),
        }
    }
}

impl From<gimli::Error> for Fault {
    fn from(error: gimli::Error) -> Fault {
        Fault::Table(error)
    }
}

/// Where the description of a function stands.
struct Place {
    start: u64,
    end: u64,
    offset: usize,
}

enum Index<'a> {
    Header(ParsedEhFrameHdr<Bytes<'a>>),
    Places(Vec<Place>),
}

struct Prepared<'a> {
    end: u64,
    bases: BaseAddresses,
    table: EhFrame<Bytes<'a>>,
    index: Index<'a>,
}

pub struct Modules<'a> {
    by_start: BTreeMap<u64, Prepared<'a>>,
    context: UnwindContext<Bytes<'a>>,
}

fn places<'a>(table: &EhFrame<Bytes<'a>>, bases: &BaseAddresses) -> Result<Vec<Place>, gimli::Error> {
    let mut places = Vec::new();
    let mut entries = table.entries(bases);
    while let Some(entry) = entries.next()? {
        if let gimli::CieOrFde::Fde(partial) = entry {
            let fde = partial.parse(EhFrame::cie_from_offset)?;
            places.push(Place {
                start: fde.initial_address(),
                end: fde.initial_address() + fde.len(),
                offset: fde.offset(),
            });
        }
    }
    places.sort_by_key(|place| place.start);
    Ok(places)
}

fn prepared<'a>(module: &Module, memory: &Memory<'a>) -> Option<Prepared<'a>> {
    let mut bases = BaseAddresses::default();
    if let Some(base) = module.text_base {
        bases = bases.set_text(base);
    }
    let (address, index) = match module.tables {
        Tables::EhFrame(address) => (address, None),
        Tables::EhFrameHdr(at) => {
            bases = bases.set_eh_frame_hdr(at);
            let header = EhFrameHdr::new(memory.from(at)?, LittleEndian).parse(&bases, 8).ok()?;
            let Pointer::Direct(address) = header.eh_frame_ptr() else {
                return None;
            };
            (address, Some(Index::Header(header)))
        }
    };
    bases = bases.set_eh_frame(address);
    let mut table = EhFrame::new(memory.from(address)?, LittleEndian);
    table.set_address_size(8);
    let index = match index {
        Some(index) => index,
        None => Index::Places(places(&table, &bases).ok()?),
    };
    Some(Prepared { end: module.end, bases, table, index })
}

impl<'a> Prepared<'a> {
    fn find(&self, address: u64) -> Option<Fde<'a>> {
        match &self.index {
            Index::Header(header) => header
                .table()?
                .fde_for_address(&self.table, &self.bases, address, EhFrame::cie_from_offset)
                .ok(),
            Index::Places(places) => {
                let after = places.partition_point(|place| place.start <= address);
                let place = &places[after.checked_sub(1)?];
                if place.end <= address {
                    return None;
                }
                let offset = place.offset.into();
                self.table.fde_from_offset(&self.bases, offset, EhFrame::cie_from_offset).ok()
            }
        }
    }
}

/// A state of the stack: its registers, and whether it stands before its instruction.
#[derive(Clone, Copy)]
pub struct State {
    pub registers: Registers,
    pub signal: bool,
}

impl State {
    pub fn address(&self) -> u64 {
        self.registers.ra.wrapping_sub(u64::from(!self.signal))
    }
}

impl<'a> Modules<'a> {
    #[inline(never)]
    pub fn new(modules: &BTreeMap<u64, Module>, memory: &Memory<'a>) -> Modules<'a> {
        let by_start = modules
            .iter()
            .filter_map(|(start, module)| Some((*start, prepared(module, memory)?)))
            .collect();
        Modules { by_start, context: UnwindContext::new() }
    }

    fn holder<'m>(
        by_start: &'m BTreeMap<u64, Prepared<'a>>,
        address: u64,
    ) -> Option<&'m Prepared<'a>> {
        let (_, module) = by_start.range(..=address).next_back()?;
        (address < module.end).then_some(module)
    }

    /// The description of a state's function, `None` at the end of the stack.
    pub fn find(&self, state: &State) -> Option<Fde<'a>> {
        if state.registers.ra == 0 {
            return None;
        }
        Modules::holder(&self.by_start, state.address())?.find(state.address())
    }

    /// Puts the caller in a state's place.
    pub fn leave(&mut self, memory: &Memory<'_>, state: &mut State, fde: &Fde<'a>) -> Result<(), Fault> {
        let address = state.address();
        let module = Modules::holder(&self.by_start, address).unwrap();
        let row =
            fde.unwind_info_for_address(&module.table, &module.bases, &mut self.context, address)?;
        let callee = &state.registers;
        let unsupported = Fault::Table(gimli::Error::UnsupportedRegister(0));
        let CfaRule::RegisterAndOffset { register, offset } = row.cfa() else {
            return Err(Fault::Table(gimli::Error::UnsupportedEvaluation));
        };
        let base = callee.get(register.0).ok_or(unsupported)?;
        let cfa = base.wrapping_add(*offset as u64);
        let mut caller = *callee;
        caller.general[RSP] = cfa;
        caller.ra = 0;
        for (register, rule) in row.registers() {
            let value = match rule {
                RegisterRule::Undefined => 0,
                RegisterRule::SameValue => callee.get(register.0).unwrap_or(0),
                RegisterRule::Offset(offset) => {
                    let slot = cfa.wrapping_add(*offset as u64);
                    memory.read_u64(slot).ok_or(Fault::Unmapped(slot))?
                }
                RegisterRule::ValOffset(offset) => cfa.wrapping_add(*offset as u64),
                RegisterRule::Register(other) => callee.get(other.0).unwrap_or(0),
                _ => return Err(Fault::Table(gimli::Error::UnsupportedEvaluation)),
            };
            caller
                .set(register.0, value)
                .ok_or(Fault::Table(gimli::Error::UnsupportedRegister(register.0.into())))?;
        }
        *state = State { registers: caller, signal: fde.is_signal_trampoline() };
        Ok(())
    }
}
