//! The ledger that a history is held against: what was filed, kept in a plain list. No buffer reaches it, only sizes,
//! cases and figures, so damage to an archive cannot hide in it.

use crate::archive::{record, trailer, MOST_RECORDS};
use crate::case::same_filing;
use crate::ranges;

#[derive(Clone, Debug)]
pub struct Line {
    pub case: Vec<u8>,
    pub figures: [u64; 4],
}

#[derive(Clone, Debug, Default)]
pub struct Ledger {
    pub lines: Vec<Line>,
}

impl Ledger {
    fn n(&self) -> u64 {
        self.lines.len() as u64
    }

    pub fn used(&self) -> u64 {
        96 * self.n() + 16
    }

    /// Refusal and used length.
    pub fn empty(&mut self, size: u64) -> (u32, u64) {
        if size < 16 {
            return (23, 0);
        }
        self.lines.clear();
        (0, 16)
    }

    /// Refusal, number and used length. `figures` are those that work out gave for a case within the ranges.
    pub fn file(&mut self, size: u64, case: &[u8], figures: Option<[u64; 4]>) -> (u32, u64, u64) {
        let refusal = self.filing_refusal(size, case);
        if refusal != 0 {
            return (refusal, 0, self.used());
        }
        let figures = figures.expect("work out gives figures within the ranges");
        let number = self.n();
        self.lines.push(Line { case: case.to_vec(), figures });
        (0, number, self.used())
    }

    fn filing_refusal(&self, size: u64, case: &[u8]) -> u32 {
        let from_input = ranges::refusal(case);
        if from_input != 0 {
            from_input
        } else if self.lines.iter().any(|line| same_filing(&line.case, case)) {
            22
        } else if size < self.used() + 96 || self.n() == MOST_RECORDS {
            23
        } else {
            0
        }
    }

    /// Refusal and record, an empty one beside a refusal.
    pub fn show(&self, number: u64) -> (u32, Vec<u8>) {
        match self.lines.get(usize::try_from(number).unwrap_or(usize::MAX)) {
            None => (24, vec![]),
            Some(line) => (0, record(&line.case, &line.figures)),
        }
    }

    /// Refusal and number.
    pub fn worst(&self, compartment: u64) -> (u32, u64) {
        if !(1..=4).contains(&compartment) {
            return (12, 0);
        }
        let figure = |line: &Line| line.figures[compartment as usize - 1];
        match self.lines.iter().map(figure).max() {
            None => (24, 0),
            Some(highest) => {
                let first = self.lines.iter().position(|line| figure(line) == highest);
                (0, first.expect("the highest figure is some line's") as u64)
            }
        }
    }

    /// The archive up to the used length.
    pub fn archive(&self) -> Vec<u8> {
        let records = self.lines.iter().flat_map(|line| record(&line.case, &line.figures));
        records.chain(trailer(self.n())).collect()
    }
}
