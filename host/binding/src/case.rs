//! A case: its fields, and its 64 bytes.

use crate::{sys, Refusal};

pub const CASE_BYTES: usize = 64;
pub const LOAD_BYTES: usize = 8;

/// The eight kinds of case.
#[derive(Clone, Copy, Debug, PartialEq, Eq)]
#[repr(u8)]
pub enum Kind {
    LeachingMeasured = 1,
    LeachingUnknown = 2,
    Application = 3,
    Sanitary = 4,
    Formulation = 5,
    Hygiene = 6,
    ChemicalToilets = 7,
    Plastics = 8,
}

/// The six places for quantities.
#[derive(Clone, Copy, Debug, PartialEq, Eq)]
#[repr(usize)]
pub enum Quantity {
    A = 0,
    B = 1,
    C = 2,
    D = 3,
    E = 4,
    F = 5,
}

/// Four daily emissions in whole micrograms.
#[derive(Clone, Copy, Debug, Default, PartialEq, Eq)]
pub struct Figures {
    pub stp: u64,
    pub surface_water: u64,
    pub air: u64,
    pub soil: u64,
}

impl From<[u64; 4]> for Figures {
    fn from([stp, surface_water, air, soil]: [u64; 4]) -> Figures {
        Figures { stp, surface_water, air, soil }
    }
}

impl From<Figures> for [u64; 4] {
    fn from(figures: Figures) -> [u64; 4] {
        [figures.stp, figures.surface_water, figures.air, figures.soil]
    }
}

/// The fields of a case. Any value that fits its field can stand here; the library says what is refused.
#[derive(Clone, Copy, Debug, PartialEq, Eq)]
pub struct Case {
    pub kind: u8,
    pub row: u8,
    pub route: u8,
    pub user: u8,
    /// The count T.
    pub count: u32,
    pub dossier: u64,
    /// The quantities a to f as binary64 patterns, so that every bit is kept.
    pub patterns: [u64; 6],
}

impl Case {
    /// A case of a kind and row for a dossier: route 1, everything else 0.
    pub fn new(kind: Kind, row: u8, dossier: u64) -> Case {
        Case { kind: kind as u8, row, route: 1, user: 0, count: 0, dossier, patterns: [0; 6] }
    }

    pub fn route(mut self, route: u8) -> Case {
        self.route = route;
        self
    }

    pub fn user(mut self, user: u8) -> Case {
        self.user = user;
        self
    }

    pub fn count(mut self, count: u32) -> Case {
        self.count = count;
        self
    }

    pub fn with(mut self, quantity: Quantity, value: f64) -> Case {
        self.patterns[quantity as usize] = value.to_bits();
        self
    }

    pub fn quantity(&self, quantity: Quantity) -> f64 {
        f64::from_bits(self.patterns[quantity as usize])
    }

    pub fn to_bytes(&self) -> [u8; CASE_BYTES] {
        let mut bytes = [0; CASE_BYTES];
        bytes[0] = self.kind;
        bytes[1] = self.row;
        bytes[2] = self.route;
        bytes[3] = self.user;
        bytes[4..8].copy_from_slice(&self.count.to_le_bytes());
        bytes[8..16].copy_from_slice(&self.dossier.to_le_bytes());
        for (index, pattern) in self.patterns.iter().enumerate() {
            bytes[16 + 8 * index..24 + 8 * index].copy_from_slice(&pattern.to_le_bytes());
        }
        bytes
    }

    pub fn from_bytes(bytes: &[u8; CASE_BYTES]) -> Case {
        let mut patterns = [0; 6];
        for (index, pattern) in patterns.iter_mut().enumerate() {
            *pattern = u64_at(bytes, 16 + 8 * index);
        }
        Case {
            kind: bytes[0],
            row: bytes[1],
            route: bytes[2],
            user: bytes[3],
            count: u32::from_le_bytes([bytes[4], bytes[5], bytes[6], bytes[7]]),
            dossier: u64_at(bytes, 8),
            patterns,
        }
    }
}

/// The little-endian number in the eight bytes from `start`.
pub(crate) fn u64_at(bytes: &[u8], start: usize) -> u64 {
    let mut eight = [0; 8];
    eight.copy_from_slice(&bytes[start..start + 8]);
    u64::from_le_bytes(eight)
}

/// The four figures of a case, given as bytes of any number.
pub fn work_out(case: &[u8]) -> Result<Figures, Refusal> {
    let mut figures = [0; 4];
    Refusal::check(sys::work_out(case, &mut figures))?;
    Ok(figures.into())
}

/// The load of a figure, as a fate model reads it: the smallest binary64 number that is not below the figure, its pattern in
/// little-endian bytes.
pub fn load(figure: u64) -> [u8; LOAD_BYTES] {
    let mut load = [0; LOAD_BYTES];
    let refusal = sys::load(figure, &mut load);
    assert_eq!(refusal, 0, "every figure has a load");
    load
}

#[cfg(test)]
mod tests {
    use super::*;

    #[test]
    fn fields_and_bytes() {
        let case = Case::new(Kind::Formulation, 0, 0x0102030405060708)
            .route(2)
            .user(3)
            .count(0x11121314)
            .with(Quantity::A, 16.)
            .with(Quantity::F, -0.);
        let bytes = case.to_bytes();
        assert_eq!(bytes[..16], [5, 0, 2, 3, 0x14, 0x13, 0x12, 0x11, 8, 7, 6, 5, 4, 3, 2, 1]);
        assert_eq!(bytes[16..24], [0, 0, 0, 0, 0, 0, 0x30, 0x40]);
        assert_eq!(bytes[56..], [0, 0, 0, 0, 0, 0, 0, 0x80]);
        assert_eq!(Case::from_bytes(&bytes), case);
        assert_eq!(case.quantity(Quantity::A), 16.);
    }
}
