//! The printed archive.

use crate::archive::{count, figures_of, RECORD_BYTES};
use crate::case::little_endian;

const MOST_BYTES: usize = 65_536;

/// What the listing program prints for an input, all of it used length.
pub fn printed(archive: &[u8]) -> String {
    let n = count(archive, archive.len() as u64).filter(|_| archive.len() <= MOST_BYTES);
    let Some(n) = n else {
        return "refused 21\n".to_string();
    };
    let mut text = "n dossier kind row route stp surface air soil\n".to_string();
    for (number, record) in archive.chunks(RECORD_BYTES as usize).take(n as usize).enumerate() {
        let dossier = little_endian(&record[8..16]);
        let [kind, row, route] = [record[0], record[1], record[2]];
        let [stp, surface, air, soil] = figures_of(record).map(|figure| figure.div_ceil(1000));
        text += &format!("{number} {dossier} {kind} {row} {route} {stp} {surface} {air} {soil}\n");
    }
    text
}
