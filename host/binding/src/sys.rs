//! The seven calls of the C interface (`include/csorvelin.h`), over slices. The only unsafe code of the workspace.
//!
//! Every call is total and writes all its outputs on every path; it returns the refusal's number, 0 for none. A slice
//! goes over as pointer and length; a slice's pointer is never null, and Rust's borrows keep buffers from overlapping.

mod c {
    extern "C" {
        pub fn csorvelin_work_out(case: *const u8, case_len: usize, figures: *mut u64) -> u32;
        pub fn csorvelin_empty(archive: *mut u8, size: usize, used: *mut u64) -> u32;
        pub fn csorvelin_file(
            archive: *mut u8,
            size: usize,
            used: *mut u64,
            case: *const u8,
            case_len: usize,
            number: *mut u64,
        ) -> u32;
        pub fn csorvelin_show(
            archive: *const u8,
            size: usize,
            used: u64,
            number: u64,
            start: *mut u64,
            length: *mut u64,
        ) -> u32;
        pub fn csorvelin_worst(archive: *const u8, size: usize, used: u64, compartment: u64, number: *mut u64) -> u32;
        pub fn csorvelin_load(figure: u64, load: *mut u8) -> u32;
        pub fn csorvelin_export(archive: *const u8, size: usize, used: u64, number: u64, loads: *mut u8) -> u32;
    }
}

pub fn work_out(case: &[u8], figures: &mut [u64; 4]) -> u32 {
    // SAFETY: the pointers are those of live borrows, with their lengths; figures has room for four.
    unsafe { c::csorvelin_work_out(case.as_ptr(), case.len(), figures.as_mut_ptr()) }
}

pub fn empty(archive: &mut [u8], used: &mut u64) -> u32 {
    // SAFETY: the pointers are those of live borrows, with their lengths.
    unsafe { c::csorvelin_empty(archive.as_mut_ptr(), archive.len(), used) }
}

pub fn file(archive: &mut [u8], used: &mut u64, case: &[u8], number: &mut u64) -> u32 {
    // SAFETY: the pointers are those of live borrows, with their lengths.
    unsafe { c::csorvelin_file(archive.as_mut_ptr(), archive.len(), used, case.as_ptr(), case.len(), number) }
}

pub fn show(archive: &[u8], used: u64, number: u64, start: &mut u64, length: &mut u64) -> u32 {
    // SAFETY: the pointers are those of live borrows, with their lengths.
    unsafe { c::csorvelin_show(archive.as_ptr(), archive.len(), used, number, start, length) }
}

pub fn worst(archive: &[u8], used: u64, compartment: u64, number: &mut u64) -> u32 {
    // SAFETY: the pointers are those of live borrows, with their lengths.
    unsafe { c::csorvelin_worst(archive.as_ptr(), archive.len(), used, compartment, number) }
}

pub fn load(figure: u64, load: &mut [u8; 8]) -> u32 {
    // SAFETY: the pointer is that of a live borrow, which has room for eight bytes.
    unsafe { c::csorvelin_load(figure, load.as_mut_ptr()) }
}

pub fn export(archive: &[u8], used: u64, number: u64, loads: &mut [u8; 32]) -> u32 {
    // SAFETY: the pointers are those of live borrows, with their lengths; loads has room for 32 bytes.
    unsafe { c::csorvelin_export(archive.as_ptr(), archive.len(), used, number, loads.as_mut_ptr()) }
}
