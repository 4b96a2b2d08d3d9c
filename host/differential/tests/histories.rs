//! Histories on one buffer, refused calls included: every answer against the ledger, every byte, guard bytes included,
//! against the model's archive. Export, which is no call of a history, comes between and changes nothing.

use csorvelin_differential::{calls, cases, guarded::Guarded, random::Random};
use csorvelin_model::archive;
use csorvelin_model::case::Case;
use csorvelin_model::ledger::Ledger;
use csorvelin_model::load::load;
use std::collections::BTreeMap;

/// How often each call answered each refusal, 0 for none.
type Met = BTreeMap<(&'static str, u32), u32>;

struct History {
    buffer: Guarded,
    used: u64,
    ledger: Ledger,
    random: Random,
    met: Met,
}

impl History {
    /// A buffer of random content, not emptied yet.
    fn new(size: usize, seed: u64) -> History {
        let mut random = Random::new(seed);
        let content = random.bytes(size);
        let buffer = Guarded::new(&content, &mut random);
        History { buffer, used: 0, ledger: Ledger::default(), random, met: Met::new() }
    }

    fn meet(&mut self, call: &'static str, refusal: u32) {
        *self.met.entry((call, refusal)).or_insert(0) += 1;
    }

    fn empty(&mut self) {
        let answer = calls::empty(self.buffer.buffer());
        assert_eq!(answer, archive::empty(self.buffer.image()));
        assert_eq!(answer, self.ledger.empty(self.buffer.size()));
        self.used = answer.1;
        self.meet("empty", answer.0);
    }

    fn file(&mut self, case: &[u8]) {
        let (refusal, figures) = calls::work_out(case);
        let fed = (refusal == 0).then_some(figures);
        let answer = calls::file(self.buffer.buffer(), self.used, case);
        assert_eq!(answer, archive::file(self.buffer.image(), self.used, case), "{case:x?}");
        assert_eq!(answer, self.ledger.file(self.buffer.size(), case, fed), "{case:x?}");
        self.used = answer.2;
        self.meet("file", answer.0);
    }

    fn show(&mut self, number: u64) {
        let (refusal, start, length) = calls::show(self.buffer.buffer(), self.used, number);
        assert_eq!((refusal, start, length), archive::show(self.buffer.image(), self.used, number));
        let shown = self.buffer.buffer()[start as usize..][..length as usize].to_vec();
        assert_eq!((refusal, shown), self.ledger.show(number));
        self.meet("show", refusal);
    }

    /// The loads of what the line of that number holds.
    fn export(&mut self, number: u64) {
        let (refusal, loads) = calls::export(self.buffer.buffer(), self.used, number);
        assert_eq!((refusal, loads), archive::export(self.buffer.image(), self.used, number));
        let line = self.ledger.lines.get(usize::try_from(number).unwrap());
        let held = line.map(|line| line.figures.map(load).concat());
        assert_eq!((refusal, loads.to_vec()), held.map_or((24, vec![0; 32]), |held| (0, held)));
        self.meet("export", refusal);
    }

    fn worst(&mut self, compartment: u64) {
        let answer = calls::worst(self.buffer.buffer(), self.used, compartment);
        assert_eq!(answer, archive::worst(self.buffer.image(), self.used, compartment));
        assert_eq!(answer, self.ledger.worst(compartment));
        self.meet("worst", answer.0);
    }

    /// A case to offer: few dossiers, so that filings repeat, numbers that differ in one byte only, and some that are refused.
    fn offered(&mut self) -> Vec<u8> {
        let random = &mut self.random;
        let damaged = random.one_in(6);
        let case = if damaged { cases::damaged(random) } else { cases::valid(random) };
        let dossiers = [1, 1, 2, 257, 1 << 32 | 1, 1 << 63 | 1];
        let dossier = if case.dossier == 0 { 0 } else { random.pick(&dossiers) };
        let mut bytes = Case { dossier, ..case }.encode().to_vec();
        if random.one_in(30) {
            bytes.truncate(random.below(64) as usize);
        }
        bytes
    }

    /// The case of a line again, with other quantities where that is still within the ranges.
    fn held(&mut self) -> Vec<u8> {
        if self.ledger.lines.is_empty() {
            return self.offered();
        }
        let line = self.random.below(self.ledger.lines.len() as u64) as usize;
        let held = Case::decode(&self.ledger.lines[line].case).expect("a line's case");
        let other = cases::valid_of(held.kind, held.row, &mut self.random);
        Case { route: held.route, user: held.user, dossier: held.dossier, ..other }.encode().to_vec()
    }

    fn step(&mut self) {
        match self.random.below(20) {
            0 if self.random.one_in(4) => self.empty(),
            0..=10 => {
                let case = self.offered();
                self.file(&case);
            }
            11 => {
                let case = self.held();
                self.file(&case);
            }
            choice @ 12..=16 => {
                let lines = self.ledger.lines.len() as u64;
                let numbers = [0, lines.wrapping_sub(1), lines, self.random.below(lines + 1), 1 << 32, u64::MAX];
                let number = self.random.pick(&numbers);
                if choice < 15 {
                    self.show(number);
                } else {
                    self.export(number);
                }
            }
            _ => {
                let compartment = self.random.pick(&[1, 2, 3, 4, 1, 2, 3, 4, 0, 5, 257, 1 << 32 | 1, u64::MAX]);
                self.worst(compartment);
            }
        }
        self.check();
    }

    /// Every byte, and the archive up to the used length as the lines have it.
    fn check(&mut self) {
        assert!(self.buffer.agrees(), "a byte differs");
        assert_eq!(self.used, self.ledger.used());
        let used = self.used as usize;
        assert_eq!(self.buffer.buffer()[..used], self.ledger.archive());
    }
}

fn run(size: usize, seed: u64, steps: u32) -> Met {
    let mut history = History::new(size, seed);
    history.empty();
    history.check();
    for _ in 0..steps {
        history.step();
    }
    history.met
}

fn gather(all: &mut Met, met: Met) {
    for (key, count) in met {
        *all.entry(key).or_insert(0) += count;
    }
}

#[test]
fn small_buffers_of_every_size() {
    let mut all = Met::new();
    for size in 16..500 {
        gather(&mut all, run(size, 2000 + size as u64, 200));
    }
    for key in [("file", 0), ("file", 1), ("file", 8), ("file", 31), ("file", 22), ("file", 23), ("empty", 0)] {
        assert!(all.get(&key).copied().unwrap_or(0) >= 100, "{key:?} in {all:?}");
    }
    for key in [("show", 0), ("show", 24), ("export", 0), ("export", 24), ("worst", 0), ("worst", 12), ("worst", 24)] {
        assert!(all.get(&key).copied().unwrap_or(0) >= 100, "{key:?} in {all:?}");
    }
    assert!(all.keys().all(|&(_, refusal)| refusal != 21), "21 in a history");
}

#[test]
fn larger_buffers() {
    let mut all = Met::new();
    for round in 0..100 {
        let size = 500 + 173 * round as usize;
        gather(&mut all, run(size, 3000 + round, 500));
    }
    assert!(all[&("file", 22)] >= 100 && all[&("file", 23)] >= 100, "{all:?}");
}

/// Filled to the last record and beyond, at each remainder of the size by 96.
#[test]
fn a_full_archive() {
    for rest in [0, 1, 15, 16, 47, 95] {
        let mut history = History::new(16 + 96 * 30 + rest, 4000 + rest as u64);
        history.empty();
        for dossier in 1..=30 {
            let case = Case { dossier, ..cases::valid(&mut history.random) };
            history.file(&case.encode());
        }
        for _ in 0..20 {
            let case = cases::valid(&mut history.random).encode();
            history.file(&case);
            let case = history.held();
            history.file(&case);
            history.check();
        }
        assert_eq!(history.met[&("file", 0)], 30);
        assert!(history.met[&("file", 22)] >= 20 && history.met[&("file", 23)] >= 15);
    }
}

/// One record, then the same case with one bit changed: held exactly where the bit lies outside bytes 0 to 3 and 8 to 15,
/// unless the changed case is out of range.
#[test]
fn the_same_filing_bit_by_bit() {
    let mut random = Random::new(6000);
    let (mut held, mut filed) = (0, 0);
    for (kind, row) in cases::kinds_and_rows() {
        let case = Case { dossier: 0x0102_0304_0506_0708, ..cases::valid_of(kind, row, &mut random) }.encode();
        for bit in 0..512 {
            let mut other = case;
            other[bit / 8] ^= 1 << (bit % 8);
            let mut history = History::new(16 + 2 * 96, 6001);
            history.empty();
            history.file(&case);
            let answer = calls::file(history.buffer.buffer(), history.used, &other).0;
            let refusal = calls::work_out(&other).0;
            let same = !matches!(bit / 8, 0..=3 | 8..=15);
            let expected = if refusal == 0 && same { 22 } else { refusal };
            assert_eq!(answer, expected, "bit {bit} of kind {kind}");
            held += u32::from(answer == 22);
            filed += u32::from(answer == 0);
        }
    }
    let rows = cases::kinds_and_rows().len() as u32;
    assert!(held >= 150 * rows && filed >= 64 * rows, "{held} held, {filed} filed");
}

/// Under 16 bytes no archive can be: empty is refused and every other call too, and no byte changes.
#[test]
fn buffers_under_sixteen_bytes() {
    for size in 0..16 {
        let mut history = History::new(size, 5000 + size as u64);
        for used in [0, 1, size as u64, 16, 112, u64::MAX] {
            history.empty();
            assert_eq!(history.used, 0);
            let valid = cases::valid(&mut history.random).encode();
            let damaged = cases::damaged(&mut history.random).encode();
            for case in [&valid, &damaged] {
                let answer = calls::file(history.buffer.buffer(), used, case);
                assert_eq!(answer, archive::file(history.buffer.image(), used, case));
                assert!(answer.0 != 0 && answer.2 == used);
            }
            for number in [0, 1, u64::MAX] {
                assert_eq!(calls::show(history.buffer.buffer(), used, number), (21, 0, 0));
                assert_eq!(calls::export(history.buffer.buffer(), used, number), (21, [0; 32]));
                assert_eq!(calls::worst(history.buffer.buffer(), used, 1), (21, 0));
                assert_eq!(calls::worst(history.buffer.buffer(), used, 5), (12, 0));
            }
            assert!(history.buffer.agrees());
        }
        assert_eq!(history.met.get(&("empty", 23)), Some(&6));
    }
}
