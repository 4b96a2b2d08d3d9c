//! The archive over plain bytes: empty, file, show, worst and export on a buffer of any size and content, with any used length.

use crate::case::{little_endian, same_filing, CASE_BYTES};
use crate::equations::work_out;
use crate::load::{load, LOAD_BYTES};

pub const RECORD_BYTES: u64 = 96;
pub const TRAILER_BYTES: u64 = 16;
pub const EDITION: u64 = 1;
pub const MOST_RECORDS: u64 = 1_000_000;
pub const LOADS_BYTES: usize = 4 * LOAD_BYTES;

/// A case and its four figures, 96 bytes.
pub fn record(case: &[u8], figures: &[u64; 4]) -> Vec<u8> {
    let mut bytes = case.to_vec();
    for figure in figures {
        bytes.extend(figure.to_le_bytes());
    }
    bytes
}

/// The trailer behind `n` records: distance to the first record, n, edition.
pub fn trailer(n: u64) -> Vec<u8> {
    let mut bytes = (RECORD_BYTES * n).to_le_bytes().to_vec();
    bytes.extend((n as u32).to_le_bytes());
    bytes.extend((EDITION as u32).to_le_bytes());
    bytes
}

/// Distance, n and edition in the last 16 of some bytes; none where those are fewer.
pub fn trailer_fields(archive: &[u8]) -> Option<[u64; 3]> {
    let trailer = archive.last_chunk::<{ TRAILER_BYTES as usize }>()?;
    Some([&trailer[0..8], &trailer[8..12], &trailer[12..16]].map(little_endian))
}

/// The first point in which some bytes, all of them used length, are no archive.
pub fn fault(archive: &[u8]) -> Option<String> {
    let length = archive.len() as u64;
    let Some([distance, n, edition]) = trailer_fields(archive) else {
        return Some(format!("fewer than the trailer's {TRAILER_BYTES}"));
    };
    // A length that no archive has comes first: what stands where the trailer should be means nothing then.
    let points = [
        ((length - TRAILER_BYTES) % RECORD_BYTES != 0, format!("{length} is not 96·n + 16")),
        (edition != EDITION, format!("edition {edition} is not {EDITION}")),
        (n > MOST_RECORDS, format!("n {n} is over {MOST_RECORDS}")),
        (distance != RECORD_BYTES * n, format!("distance {distance} is not 96·{n}")),
        (length != RECORD_BYTES * n + TRAILER_BYTES, format!("{length} is not 96·{n} + 16")),
    ];
    points.into_iter().find(|(holds, _)| *holds).map(|(_, words)| words)
}

/// The number of records, none where refusal 21 holds.
pub fn count(buffer: &[u8], used: u64) -> Option<u64> {
    let archive = buffer.get(..usize::try_from(used).ok()?)?;
    let [_, n, _] = trailer_fields(archive)?;
    fault(archive).is_none().then_some(n)
}

fn record_at(buffer: &[u8], number: u64) -> &[u8] {
    let start = (RECORD_BYTES * number) as usize;
    &buffer[start..start + RECORD_BYTES as usize]
}

/// The four figures of a record.
pub fn figures_of(record: &[u8]) -> [u64; 4] {
    [64, 72, 80, 88].map(|start| little_endian(&record[start..start + 8]))
}

/// Refusal and used length.
pub fn empty(buffer: &mut [u8]) -> (u32, u64) {
    if (buffer.len() as u64) < TRAILER_BYTES {
        return (23, 0);
    }
    buffer[..16].copy_from_slice(&trailer(0));
    (0, TRAILER_BYTES)
}

/// Refusal, number of the new record, used length.
pub fn file(buffer: &mut [u8], used: u64, case: &[u8]) -> (u32, u64, u64) {
    let figures = match work_out(case) {
        Ok(figures) => figures,
        Err(number) => return (number, 0, used),
    };
    let Some(n) = count(buffer, used) else {
        return (21, 0, used);
    };
    let held = (0..n).any(|number| same_filing(&record_at(buffer, number)[..CASE_BYTES], case));
    if held {
        return (22, 0, used);
    }
    if buffer.len() as u64 - used < RECORD_BYTES || n == MOST_RECORDS {
        return (23, 0, used);
    }
    let written = [record(case, &figures), trailer(n + 1)].concat();
    let start = (RECORD_BYTES * n) as usize;
    buffer[start..start + written.len()].copy_from_slice(&written);
    (0, n, used + RECORD_BYTES)
}

/// Refusal, and the record's first byte and length.
pub fn show(buffer: &[u8], used: u64, number: u64) -> (u32, u64, u64) {
    match count(buffer, used) {
        None => (21, 0, 0),
        Some(n) if number >= n => (24, 0, 0),
        Some(_) => (0, RECORD_BYTES * number, RECORD_BYTES),
    }
}

/// Refusal, and the number of the record with the highest figure, the first among equals.
pub fn worst(buffer: &[u8], used: u64, compartment: u64) -> (u32, u64) {
    if !(1..=4).contains(&compartment) {
        return (12, 0);
    }
    let Some(n) = count(buffer, used) else {
        return (21, 0);
    };
    let figure = |number| figures_of(record_at(buffer, number))[compartment as usize - 1];
    match (0..n).max_by_key(|&number| (figure(number), std::cmp::Reverse(number))) {
        None => (24, 0),
        Some(number) => (0, number),
    }
}

/// Refusal, and the loads of a record's four figures; zeros beside a refusal.
pub fn export(buffer: &[u8], used: u64, number: u64) -> (u32, [u8; LOADS_BYTES]) {
    let mut loads = [0; LOADS_BYTES];
    let refusal = match count(buffer, used) {
        None => 21,
        Some(n) if number >= n => 24,
        Some(_) => {
            let figures = figures_of(record_at(buffer, number));
            for (place, figure) in loads.chunks_mut(LOAD_BYTES).zip(figures) {
                place.copy_from_slice(&load(figure));
            }
            0
        }
    };
    (refusal, loads)
}
