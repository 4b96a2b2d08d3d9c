//! A case, 64 bytes, taken apart.

use crate::binary64;
use crate::ratio::Ratio;

pub const CASE_BYTES: usize = 64;

/// The names of the six quantities, in the order of their bytes.
pub const QUANTITIES: [char; 6] = ['a', 'b', 'c', 'd', 'e', 'f'];

#[derive(Clone, Copy, Debug, PartialEq, Eq)]
pub struct Case {
    pub kind: u8,
    pub row: u8,
    pub route: u8,
    pub user: u8,
    /// The count T.
    pub count: u32,
    pub dossier: u64,
    /// The patterns of a to f.
    pub patterns: [u64; 6],
}

/// The little-endian number in some bytes, at most eight.
pub fn little_endian(bytes: &[u8]) -> u64 {
    bytes.iter().rev().fold(0, |value, &byte| value << 8 | u64::from(byte))
}

impl Case {
    /// The fields of a case; none if it is not 64 bytes long.
    pub fn decode(bytes: &[u8]) -> Option<Case> {
        if bytes.len() != CASE_BYTES {
            return None;
        }
        let mut patterns = [0; 6];
        for (index, pattern) in patterns.iter_mut().enumerate() {
            let start = 16 + 8 * index;
            *pattern = little_endian(&bytes[start..start + 8]);
        }
        Some(Case {
            kind: bytes[0],
            row: bytes[1],
            route: bytes[2],
            user: bytes[3],
            count: little_endian(&bytes[4..8]) as u32,
            dossier: little_endian(&bytes[8..16]),
            patterns,
        })
    }

    pub fn encode(&self) -> [u8; CASE_BYTES] {
        let mut bytes = [0; CASE_BYTES];
        bytes[..4].copy_from_slice(&[self.kind, self.row, self.route, self.user]);
        bytes[4..8].copy_from_slice(&self.count.to_le_bytes());
        bytes[8..16].copy_from_slice(&self.dossier.to_le_bytes());
        for (place, pattern) in bytes[16..].chunks_mut(8).zip(self.patterns) {
            place.copy_from_slice(&pattern.to_le_bytes());
        }
        bytes
    }

    /// The exact value of quantity `index`, whose pattern must be a quantity's.
    pub fn exact(&self, index: usize) -> Ratio {
        binary64::exact(self.patterns[index])
    }
}

/// Whether two cases have the same kind, row, route, user (bytes 0 to 3) and dossier number (8 to 15). Both must have 16 bytes.
pub fn same_filing(one: &[u8], other: &[u8]) -> bool {
    one[0..4] == other[0..4] && one[8..16] == other[8..16]
}
