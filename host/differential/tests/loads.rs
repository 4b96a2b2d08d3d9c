//! Loads: figures of every length and beside every edge, against the model and against the request's own words in whole
//! numbers; then records of any content exported, from archives that are sound, cut or called with another used length.

use csorvelin_binding::{sys, LOADS_BYTES, LOAD_BYTES};
use csorvelin_differential::{calls, cases, guarded::Guarded, random::Random};
use csorvelin_model::archive;
use csorvelin_model::load::load;
use std::collections::BTreeMap;

/// The library's pattern for a figure, which must be the model's.
fn compare(figure: u64) -> u64 {
    let answer = calls::load(figure);
    assert_eq!(answer, (0, load(figure)), "{figure}");
    u64::from_le_bytes(answer.1)
}

/// The exact value of a pattern times 2^53: of 0, or of a number from 1/2 to 2^64.
fn times_2_53(pattern: u64) -> u128 {
    let field = pattern >> 52;
    assert!(pattern == 0 || (1022..=1087).contains(&field), "{pattern:#x}");
    match pattern {
        0 => 0,
        _ => u128::from(1 << 52 | pattern & ((1 << 52) - 1)) << (field - 1022),
    }
}

/// How a load lies to its figure, and the cast of the figure, which goes to the nearest number, to both.
#[derive(Clone, Copy, Debug, PartialEq, Eq, PartialOrd, Ord)]
enum Lies {
    /// The load is the figure.
    Exact,
    /// The load is above the figure, and so is the cast.
    Above,
    /// The load is above the figure, the cast below.
    CastBelow,
}

/// Not below the figure, the least such number, at most one part in 2^52 above.
fn check(figure: u64) -> Lies {
    let pattern = compare(figure);
    let (load, exact) = (times_2_53(pattern), u128::from(figure) << 53);
    assert!(load >= exact, "{figure}: below");
    assert!(pattern == 0 || times_2_53(pattern - 1) < exact, "{figure}: not the least");
    assert!((load - exact) << 52 <= exact, "{figure}: too far above");
    assert_eq!(pattern == 0, figure == 0, "{figure}");
    let cast = (figure as f64).to_bits();
    match load == exact {
        true => Lies::Exact,
        false if cast == pattern => Lies::Above,
        false => {
            assert!(cast == pattern - 1 && times_2_53(cast) < exact, "{figure}: cast to {cast:#x}");
            Lies::CastBelow
        }
    }
}

/// How often loads lay so.
fn lying(figures: impl IntoIterator<Item = u64>) -> BTreeMap<Lies, u32> {
    let mut met = BTreeMap::new();
    for figure in figures {
        *met.entry(check(figure)).or_insert(0) += 1;
    }
    met
}

/// A figure of so many binary digits: any, or with its low ones all alike.
fn of_length(length: u32, random: &mut Random) -> u64 {
    let figure = 1 << (length - 1) | random.word() >> (64 - length);
    let low = (1 << random.below(u64::from(length))) - 1;
    match random.below(6) {
        0 => figure | low,
        1 => figure & !low,
        2 => (figure & !low).saturating_add(1),
        _ => figure,
    }
}

/// Numbers that binary64 has, of so many binary digits, at both ends and between, with how far the next one is.
fn on_the_grid(length: u32, random: &mut Random) -> Vec<(u64, u64)> {
    let (first, spacing) = (1u64 << (length - 1), 1 << (length - 53));
    let last = (1 << 52) - 1;
    let ends = [0, 1, 2, 3, last - 3, last - 2, last - 1, last];
    let between = (0..60).map(|_| random.below(last));
    ends.into_iter().chain(between).map(|steps| (first + steps * spacing, spacing)).collect()
}

#[test]
fn loads_by_pencil() {
    let expected: [(u64, u64); 15] = [
        (0, 0),
        (1, 0x3ff0_0000_0000_0000),
        (2, 0x4000_0000_0000_0000),
        (76_923_077, 0x4192_5703_1400_0000),
        ((1 << 53) - 1, 0x433f_ffff_ffff_ffff),
        (1 << 53, 0x4340_0000_0000_0000),
        ((1 << 53) + 1, 0x4340_0000_0000_0001),
        ((1 << 53) + 2, 0x4340_0000_0000_0001),
        ((1 << 53) + 3, 0x4340_0000_0000_0002),
        (1_000_000_000_000_000_000, 0x43ab_c16d_674e_c800),
        ((1 << 63) - 1, 0x43e0_0000_0000_0000),
        ((1 << 63) + 1, 0x43e0_0000_0000_0001),
        (u64::MAX - 2047, 0x43ef_ffff_ffff_ffff),
        (u64::MAX - 2046, 0x43f0_0000_0000_0000),
        (u64::MAX, 0x43f0_0000_0000_0000),
    ];
    for (figure, pattern) in expected {
        assert_eq!(calls::load(figure), (0, pattern.to_le_bytes()), "{figure}");
        check(figure);
    }
    assert_eq!(calls::load((1 << 53) + 1).1, [1, 0, 0, 0, 0, 0, 0x40, 0x43]);
}

#[test]
fn figures_of_every_length() {
    let mut random = Random::new(701);
    for length in 1..=64 {
        let met = lying((0..1500).map(|_| of_length(length, &mut random)));
        let all = [Lies::Exact, Lies::Above, Lies::CastBelow];
        let possible = if length <= 53 { &all[..1] } else { &all };
        assert!(met.keys().eq(possible), "{length}: {met:?}");
    }
}

#[test]
fn figures_beside_powers_of_two() {
    for power in (0..64).map(|exponent| 1u64 << exponent) {
        for beside in 0..=3 {
            check(power.saturating_sub(beside));
            check(power + beside);
        }
        // All ones, and those with one of them missing.
        let ones = 2 * (power - 1) + 1;
        for bit in 0..64 {
            check(ones & !(1 << bit));
        }
    }
    for below in [0, 1024, 2048, 4096, 8192] {
        for beside in 0..=3 {
            check(u64::MAX - below - beside);
            check((u64::MAX - below).saturating_add(beside));
        }
    }
}

/// Numbers that binary64 has, their neighbours, and what lies in the middle of two of them, where a cast goes to the even one.
#[test]
fn figures_beside_the_grid_and_its_ties() {
    let mut random = Random::new(702);
    for length in 54..=64 {
        for (figure, spacing) in on_the_grid(length, &mut random) {
            assert_eq!(check(figure), Lies::Exact, "{figure}");
            let upward = [1, spacing / 2 - 1, spacing / 2, spacing / 2 + 1, spacing - 1];
            for above in upward.into_iter().filter(|above| (1..spacing).contains(above)) {
                let met = check(figure + above);
                // In the middle the cast goes down from an even number, and up from an odd one.
                let down = 2 * above < spacing || 2 * above == spacing && (figure / spacing) % 2 == 0;
                assert_eq!(met, if down { Lies::CastBelow } else { Lies::Above }, "{figure} + {above}");
                assert_eq!(compare(figure + above), compare(figure) + 1);
            }
            if figure > spacing {
                check(figure - 1);
            }
        }
    }
}

#[test]
fn a_load_between_guard_bytes() {
    let mut random = Random::new(709);
    for length in 0..=64 {
        let figure = if length == 0 { 0 } else { of_length(length, &mut random) };
        let mut place = Guarded::new(&random.bytes(LOAD_BYTES), &mut random);
        assert_eq!(sys::load(figure, place.buffer().try_into().expect("the place for a load")), 0);
        place.image().copy_from_slice(&load(figure));
        assert!(place.agrees(), "{figure}");
    }
}

/// The cast of a figure is not its load, nor is the number behind the cast: a library that took either would be found.
#[test]
fn a_cast_is_no_load() {
    let mut random = Random::new(703);
    let met = lying((0..6000).map(|_| of_length(random.between(54, 64) as u32, &mut random)));
    for lies in [Lies::Exact, Lies::Above, Lies::CastBelow] {
        assert!(met.get(&lies).is_some_and(|&count| count >= 500), "{met:?}");
    }
}

/// Archive bytes in which every record has any case, and figures of every length.
fn foreign(n: u64, random: &mut Random) -> Vec<u8> {
    let mut content = random.bytes(96 * n as usize);
    for place in content.chunks_mut(96).flat_map(|record| record[64..].chunks_mut(8)) {
        let figure = match random.below(8) {
            0 => random.pick(&[0, 1, 1 << 53, (1 << 53) + 1, u64::MAX - 2047, u64::MAX]),
            _ => of_length(random.between(1, 64) as u32, random),
        };
        place.copy_from_slice(&figure.to_le_bytes());
    }
    content.extend(archive::trailer(n));
    content
}

/// An export from an archive between guard bytes to a place between others: refusal, loads and every byte as the model says.
fn export(content: &[u8], used: u64, number: u64, random: &mut Random) -> u32 {
    let mut buffer = Guarded::new(content, random);
    let mut loads = Guarded::new(&random.bytes(LOADS_BYTES), random);
    let place = loads.buffer().try_into().expect("the place for loads");
    let refusal = sys::export(buffer.buffer(), used, number, place);
    let (expected, image) = archive::export(content, used, number);
    loads.image().copy_from_slice(&image);
    assert_eq!(refusal, expected, "record {number}, used {used}");
    assert!(loads.agrees(), "a load or a byte beside, record {number}, used {used}");
    assert!(buffer.agrees(), "a byte of the archive, record {number}, used {used}");
    assert!(refusal == 0 || image == [0; LOADS_BYTES]);
    refusal
}

#[test]
fn records_of_any_content() {
    let mut random = Random::new(704);
    for n in 0..40 {
        let mut content = foreign(n, &mut random);
        let used = content.len() as u64;
        content.extend(random.bytes([0, 1, 15, 96, 131][n as usize % 5]));
        for number in 0..n {
            assert_eq!(export(&content, used, number, &mut random), 0);
            // Four loads in the order of the figures, each that of its own.
            let record = &content[96 * number as usize..][..96];
            let own = archive::figures_of(record).map(|figure| calls::load(figure).1);
            assert_eq!(calls::export(&content, used, number), (0, *own.as_flattened().first_chunk().unwrap()));
        }
        for number in [n, n + 1, n + 96, 1 << 32, (1 << 32) + n, u64::MAX / 96 + 1, 1 << 63, u64::MAX] {
            assert_eq!(export(&content, used, number, &mut random), 24, "{number} of {n}");
        }
    }
}

#[test]
fn used_lengths_that_are_not_the_archive_s() {
    let mut random = Random::new(705);
    // The archive fills its buffer, or bytes stand behind it.
    for (n, rest) in (0..6).flat_map(|n| [(n, 0), (n, 150)]) {
        let mut content = foreign(n, &mut random);
        let used = content.len() as u64;
        content.extend(random.bytes(rest));
        let every = 0..content.len() as u64 + 100;
        let far = [(1 << 32) + used, 1 << 63 | used, u64::MAX - 95, u64::MAX - 15, u64::MAX];
        for other in every.chain(far).filter(|&other| other != used) {
            for number in [0, n, u64::MAX] {
                assert_eq!(export(&content, other, number, &mut random), 21, "{other} for {used}");
            }
        }
    }
}

#[test]
fn torn_archives() {
    let mut random = Random::new(706);
    for n in 0..4 {
        let sound = foreign(n, &mut random);
        let used = sound.len() as u64;
        let whole = if n == 0 { 24 } else { 0 };
        for cut in 0..=sound.len() {
            let expected = if cut == sound.len() { whole } else { 21 };
            assert_eq!(export(&sound[..cut], cut as u64, 0, &mut random), expected);
            assert_eq!(export(&sound[..cut], used, 0, &mut random), expected);
            // Its front torn off, so that the trailer points before the first byte.
            let expected = if cut == 0 { whole } else { 21 };
            assert_eq!(export(&sound[cut..], used - cut as u64, 0, &mut random), expected);
        }
        for bit in 0..8 * sound.len() {
            let mut content = sound.clone();
            content[bit / 8] ^= 1 << (bit % 8);
            let expected = if bit / 8 < 96 * n as usize { whole } else { 21 };
            assert_eq!(export(&content, used, 0, &mut random), expected, "bit {bit}");
        }
    }
}

/// Bytes need no alignment: archive and loads at every distance from a multiple of eight.
#[test]
fn bytes_at_any_place() {
    let mut random = Random::new(707);
    let content = foreign(3, &mut random);
    let used = content.len() as u64;
    let expected = archive::export(&content, used, 1);
    for (from, to) in (0..8).flat_map(|from| (0..8).map(move |to| (from, to))) {
        let shifted = [random.bytes(from), content.clone()].concat();
        let mut places = [0xa5; LOADS_BYTES + 8];
        let place = places[to..].first_chunk_mut().unwrap();
        assert_eq!((sys::export(&shifted[from..], used, 1, place), *place), expected, "{from} {to}");
        let place: &mut [u8; LOAD_BYTES] = places[to..].first_chunk_mut().unwrap();
        assert_eq!((sys::load(u64::MAX, place), *place), (0, load(u64::MAX)), "{to}");
    }
}

/// Zeros are a result too: only the refusal tells them from none.
#[test]
fn a_record_of_zeros() {
    let content = [vec![0xff; 64], vec![0; 32], archive::trailer(1)].concat();
    assert_eq!(calls::export(&content, 112, 0), (0, [0; LOADS_BYTES]));
    assert_eq!(calls::export(&content, 112, 1), (24, [0; LOADS_BYTES]));
    assert_eq!(calls::export(&content, 111, 0), (21, [0; LOADS_BYTES]));
}

/// What is filed has figures above 2^53 too, and their loads are exported from where filing wrote them.
#[test]
fn filed_records() {
    let mut random = Random::new(708);
    let mut above = 0;
    for _ in 0..3000 {
        let mut buffer = random.bytes(112);
        let (_, used) = calls::empty(&mut buffer);
        let case = cases::valid_of(5, 0, &mut random).encode();
        let (refusal, figures) = calls::work_out(&case);
        assert_eq!(refusal, 0);
        let (refusal, number, used) = calls::file(&mut buffer, used, &case);
        assert_eq!((refusal, number), (0, 0));
        let loads = figures.map(load);
        assert_eq!(calls::export(&buffer, used, 0), (0, *loads.as_flattened().first_chunk().unwrap()));
        above += u32::from(figures.into_iter().any(|figure| check(figure) != Lies::Exact));
    }
    assert!(above >= 30, "{above} of 3000 cases have a figure that is no binary64");
}
