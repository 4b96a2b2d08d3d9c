//! What the differential tests share: a fixed random sequence, generated cases, the library's calls with every output,
//! and a buffer between guard bytes.

pub mod calls;
pub mod cases;
pub mod guarded;
pub mod random;
