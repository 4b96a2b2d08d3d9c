//! An exact model of the requirements (paper 01 and the requests that came after it), written from them and from nothing
//! else: its own arithmetic ([`natural`], [`ratio`], [`binary64`]), the default tables with their sources ([`tables`]), the
//! ranges and refusals ([`ranges`]), the eight equations ([`equations`]; kind 8 from request No. 2), the archive over plain
//! bytes ([`archive`]), the ledger ([`ledger`]), the printed archive ([`listing`]) and the fate model's loads ([`load`],
//! from request No. 1). The tests hold the library against it.

pub mod archive;
pub mod binary64;
pub mod case;
pub mod equations;
pub mod ledger;
pub mod listing;
pub mod load;
pub mod natural;
pub mod ranges;
pub mod ratio;
pub mod tables;
