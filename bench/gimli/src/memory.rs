//! Memory by address.
use std::collections::BTreeMap;

/// Regions of bytes by their addresses, none of which overlap.
pub struct Memory<'a> {
    regions: BTreeMap<u64, &'a [u8]>,
}

impl<'a> Memory<'a> {
    pub fn new() -> Memory<'a> {
        Memory { regions: BTreeMap::new() }
    }

    /// Adds a region, unless it is empty, passes the last address, or shares one with another.
    pub fn add(&mut self, address: u64, bytes: &'a [u8]) -> Option<()> {
        let last = address.checked_add((bytes.len() as u64).checked_sub(1)?)?;
        if let Some((start, below)) = self.regions.range(..=last).next_back() {
            if address <= start + (below.len() as u64 - 1) {
                return None;
            }
        }
        self.regions.insert(address, bytes);
        Some(())
    }

    /// The bytes from an address to the end of its region.
    pub fn from(&self, address: u64) -> Option<&'a [u8]> {
        let (start, bytes) = self.regions.range(..=address).next_back()?;
        let from = bytes.get((address - start) as usize..)?;
        (!from.is_empty()).then_some(from)
    }

    pub fn read_u64(&self, address: u64) -> Option<u64> {
        match self.from(address)?.get(..8) {
            Some(word) => Some(u64::from_le_bytes(word.try_into().unwrap())),
            // across regions
            None => (0..8).rev().try_fold(0, |value, place| {
                Some(value << 8 | u64::from(self.from(address.checked_add(place)?)?[0]))
            }),
        }
    }
}
