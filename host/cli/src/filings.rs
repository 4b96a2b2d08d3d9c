//! Which record of an archive is the first of its filing.

use csorvelin_binding::{Archive, Case};
use std::collections::HashMap;

/// Kind, row, route, user and dossier, by which two cases are the same filing.
type Filing = (u8, u8, u8, u8, u64);

fn filing(case: &Case) -> Filing {
    (case.kind, case.row, case.route, case.user, case.dossier)
}

/// The filings of an archive that may grow, so that ten thousand questions do not read a million records each.
#[derive(Default)]
pub struct Filings {
    first: HashMap<Filing, u64>,
    taken_in: u64,
}

impl Filings {
    /// The number of the first record that is the same filing as a case.
    pub fn first(&mut self, archive: &Archive, case: &Case) -> Option<u64> {
        for number in self.taken_in..archive.len() {
            if let Ok(record) = archive.show(number) {
                self.first.entry(filing(&record.case())).or_insert(number);
            }
        }
        self.taken_in = archive.len();
        self.first.get(&filing(case)).copied()
    }
}

#[cfg(test)]
mod tests {
    use super::*;
    use csorvelin_binding::Kind;

    #[test]
    fn the_first_of_its_filing_as_the_archive_grows() {
        let case = |dossier| Case::new(Kind::Hygiene, 1, dossier);
        let (mut archive, mut filings) = (Archive::new(), Filings::default());
        assert_eq!(filings.first(&archive, &case(1)), None);
        for dossier in 1..=3 {
            archive.file(&case(dossier).to_bytes()).unwrap();
            assert_eq!(filings.first(&archive, &case(dossier)), Some(dossier - 1));
            assert_eq!(filings.first(&archive, &case(dossier).count(9)), Some(dossier - 1));
            assert_eq!(filings.first(&archive, &case(dossier + 1)), None);
        }
        let twice =
            [&archive.bytes()[..288], &archive.bytes()[..288], &[64, 2, 0, 0, 0, 0, 0, 0, 6, 0, 0, 0, 1, 0, 0, 0]];
        let twice = Archive::from_bytes(twice.concat()).unwrap();
        assert_eq!(Filings::default().first(&twice, &case(2)), Some(1));
    }
}
