//! The library's calls, answering every output. The outputs hold other values before, so that one left unwritten shows.

use csorvelin_binding::{sys, LOADS_BYTES, LOAD_BYTES};

const UNWRITTEN: u64 = 0xa5a5_5a5a_c3c3_3c3c;

/// Refusal and figures.
pub fn work_out(case: &[u8]) -> (u32, [u64; 4]) {
    let mut figures = [UNWRITTEN; 4];
    let refusal = sys::work_out(case, &mut figures);
    (refusal, figures)
}

/// Refusal and used length.
pub fn empty(buffer: &mut [u8]) -> (u32, u64) {
    let mut used = UNWRITTEN;
    let refusal = sys::empty(buffer, &mut used);
    (refusal, used)
}

/// Refusal, number and used length.
pub fn file(buffer: &mut [u8], used: u64, case: &[u8]) -> (u32, u64, u64) {
    let (mut used, mut number) = (used, UNWRITTEN);
    let refusal = sys::file(buffer, &mut used, case, &mut number);
    (refusal, number, used)
}

/// Refusal, first byte and length.
pub fn show(buffer: &[u8], used: u64, number: u64) -> (u32, u64, u64) {
    let (mut start, mut length) = (UNWRITTEN, UNWRITTEN);
    let refusal = sys::show(buffer, used, number, &mut start, &mut length);
    (refusal, start, length)
}

/// Refusal and number.
pub fn worst(buffer: &[u8], used: u64, compartment: u64) -> (u32, u64) {
    let mut number = UNWRITTEN;
    let refusal = sys::worst(buffer, used, compartment, &mut number);
    (refusal, number)
}

/// Refusal and load.
pub fn load(figure: u64) -> (u32, [u8; LOAD_BYTES]) {
    let mut load = UNWRITTEN.to_le_bytes();
    let refusal = sys::load(figure, &mut load);
    (refusal, load)
}

/// Refusal and loads.
pub fn export(buffer: &[u8], used: u64, number: u64) -> (u32, [u8; LOADS_BYTES]) {
    let mut loads = [UNWRITTEN as u8; LOADS_BYTES];
    let refusal = sys::export(buffer, used, number, &mut loads);
    (refusal, loads)
}
