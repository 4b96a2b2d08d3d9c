//! Safe calls of the static library `csorvelin`: types for a case, kinds, figures, refusals and archives.
//!
//! [`sys`] has the seven calls as the C interface has them, every output included; the rest is built on it.
//!
//! ```
//! use csorvelin_binding::{load, work_out, Archive, Case, Compartment, Kind, Quantity, Refusal};
//!
//! let case = Case::new(Kind::Sanitary, 1, 7).with(Quantity::A, 100.0).with(Quantity::C, 1.0);
//! assert_eq!(work_out(&case.to_bytes())?.stp, 76_923_077);
//!
//! let mut archive = Archive::new();
//! assert_eq!(archive.file(&case.to_bytes())?, 0);
//! assert_eq!(archive.file(&case.to_bytes()), Err(Refusal::Held));
//! assert_eq!(archive.worst(Compartment::Stp)?, 0);
//! assert_eq!(archive.export(0)?[..8], load(76_923_077));
//! assert_eq!(archive.export(1), Err(Refusal::NoRecord));
//! # Ok::<(), Refusal>(())
//! ```

mod archive;
mod case;
mod refusal;
#[allow(unsafe_code)]
pub mod sys;

pub use archive::{Archive, Compartment, Record, LOADS_BYTES, RECORD_BYTES, TRAILER_BYTES};
pub use case::{load, work_out, Case, Figures, Kind, Quantity, CASE_BYTES, LOAD_BYTES};
pub use refusal::Refusal;

/// The version that the C header has.
pub const VERSION: &str = env!("CSORVELIN_VERSION");
