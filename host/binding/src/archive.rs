//! An archive in memory: a buffer and its used length, and views of its records.

use crate::case::{u64_at, Case, Figures, CASE_BYTES, LOAD_BYTES};
use crate::{sys, Refusal};

pub const RECORD_BYTES: usize = 96;
pub const TRAILER_BYTES: usize = 16;
pub const LOADS_BYTES: usize = 4 * LOAD_BYTES;

/// A compartment, numbered in the order of the figures.
#[derive(Clone, Copy, Debug, PartialEq, Eq)]
#[repr(u64)]
pub enum Compartment {
    Stp = 1,
    SurfaceWater = 2,
    Air = 3,
    Soil = 4,
}

impl From<Compartment> for u64 {
    fn from(compartment: Compartment) -> u64 {
        compartment as u64
    }
}

/// An archive that owns its bytes. It holds one only: every value of this type passed the library's check.
#[derive(Clone, Debug)]
pub struct Archive {
    buffer: Vec<u8>,
    used: u64,
}

impl Archive {
    /// An archive without records.
    pub fn new() -> Archive {
        let mut buffer = vec![0; TRAILER_BYTES];
        let mut used = 0;
        let refusal = sys::empty(&mut buffer, &mut used);
        assert_eq!(refusal, 0, "16 bytes are enough for an empty archive");
        Archive { buffer, used }
    }

    /// An archive from its bytes, all of them used length.
    pub fn from_bytes(bytes: Vec<u8>) -> Result<Archive, Refusal> {
        let archive = Archive { used: bytes.len() as u64, buffer: bytes };
        // No archive has a record of this number, so the answer is 21 for what is no archive, otherwise 24.
        match archive.show(u64::MAX) {
            Err(Refusal::NotAnArchive) => Err(Refusal::NotAnArchive),
            _ => Ok(archive),
        }
    }

    /// The archive's bytes, up to the used length.
    pub fn bytes(&self) -> &[u8] {
        &self.buffer[..self.used as usize]
    }

    /// The archive's bytes, given away.
    pub fn into_bytes(mut self) -> Vec<u8> {
        self.buffer.truncate(self.used as usize);
        self.buffer
    }

    /// The number of records.
    pub fn len(&self) -> u64 {
        (self.used - TRAILER_BYTES as u64) / RECORD_BYTES as u64
    }

    pub fn is_empty(&self) -> bool {
        self.len() == 0
    }

    /// Files a case, with room made for it, and answers the number of its record.
    pub fn file(&mut self, case: &[u8]) -> Result<u64, Refusal> {
        let needed = self.used as usize + RECORD_BYTES;
        if self.buffer.len() < needed {
            self.buffer.resize(needed, 0);
        }
        let mut number = 0;
        Refusal::check(sys::file(&mut self.buffer, &mut self.used, case, &mut number))?;
        Ok(number)
    }

    pub fn show(&self, number: u64) -> Result<Record<'_>, Refusal> {
        let (mut start, mut length) = (0, 0);
        Refusal::check(sys::show(&self.buffer, self.used, number, &mut start, &mut length))?;
        let start = start as usize;
        Ok(Record { bytes: &self.buffer[start..start + length as usize] })
    }

    /// The number of the record with the highest figure for a compartment, the first filed among equals. A number that
    /// is no compartment's is refused.
    pub fn worst(&self, compartment: impl Into<u64>) -> Result<u64, Refusal> {
        let mut number = 0;
        Refusal::check(sys::worst(&self.buffer, self.used, compartment.into(), &mut number))?;
        Ok(number)
    }

    /// The loads of a record's four figures, one behind the other in the order of the figures; of figures that are all 0
    /// they are 32 zero bytes.
    pub fn export(&self, number: u64) -> Result<[u8; LOADS_BYTES], Refusal> {
        let mut loads = [0; LOADS_BYTES];
        Refusal::check(sys::export(&self.buffer, self.used, number, &mut loads))?;
        Ok(loads)
    }

    /// The records in filing order.
    pub fn records(&self) -> impl Iterator<Item = Record<'_>> {
        (0..self.len()).map_while(|number| self.show(number).ok())
    }
}

impl Default for Archive {
    fn default() -> Archive {
        Archive::new()
    }
}

/// A record's bytes, lent from its archive: a case and its figures.
#[derive(Clone, Copy, Debug, PartialEq, Eq)]
pub struct Record<'a> {
    bytes: &'a [u8],
}

impl<'a> Record<'a> {
    pub fn bytes(&self) -> &'a [u8] {
        self.bytes
    }

    pub fn case_bytes(&self) -> &'a [u8; CASE_BYTES] {
        self.bytes.first_chunk().expect("a record is 96 bytes long")
    }

    pub fn case(&self) -> Case {
        Case::from_bytes(self.case_bytes())
    }

    pub fn figures(&self) -> Figures {
        [0, 1, 2, 3].map(|index| u64_at(self.bytes, CASE_BYTES + 8 * index)).into()
    }
}
