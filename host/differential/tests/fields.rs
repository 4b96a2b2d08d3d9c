//! The fields of record and trailer as docs/FORMAT.md prints them, in buffers that the library empties and files into: the
//! buffer is afterwards what it was with each number in its place, and every other byte, guards included, is as it was.
//! Figures are the model's.

use csorvelin_differential::{calls, cases, guarded::Guarded, random::Random};
use csorvelin_model::case::Case;
use csorvelin_model::{archive, equations};

const FORMAT: &str = include_str!("../../../docs/FORMAT.md");
const RECORD: usize = 96;
const TRAILER: usize = 16;

struct Field {
    offset: usize,
    width: usize,
    name: &'static str,
}

/// The lines of the table under a heading. Each line of the section that has a bar is one of them, the head or the rule.
fn printed(heading: &str) -> Vec<Field> {
    let section = FORMAT.lines().skip_while(|&line| line != heading).skip(1).take_while(|line| !line.starts_with('#'));
    let lines =
        section.filter(|line| line.contains('|') && !line.starts_with("|---") && !line.starts_with("| offset "));
    let fields = lines.map(|line| {
        let cells: Vec<_> = line.split('|').map(str::trim).collect();
        let number = |cell: usize| cells[cell].parse().unwrap_or_else(|_| panic!("no number: {line}"));
        Field { offset: number(1), width: number(2), name: cells[3] }
    });
    fields.collect()
}

fn of_record() -> Vec<Field> {
    printed("### A record")
}

fn of_trailer() -> Vec<Field> {
    printed("### The trailer")
}

/// Puts the number of each field in its place of what begins at `start`. It must fit there.
fn put(image: &mut [u8], start: usize, fields: &[Field], number: impl Fn(&str) -> u64) {
    for field in fields {
        let bytes = number(field.name).to_le_bytes();
        assert!(bytes[field.width..].iter().all(|&byte| byte == 0), "{} does not fit", field.name);
        image[start + field.offset..][..field.width].copy_from_slice(&bytes[..field.width]);
    }
}

/// What a field of a record holds, by its name.
fn of_case(name: &str, case: &Case, [stp, water, air, soil]: [u64; 4]) -> u64 {
    let [a, b, c, d, e, f] = case.patterns;
    match name {
        "kind" => case.kind.into(),
        "row" => case.row.into(),
        "route" => case.route.into(),
        "user" => case.user.into(),
        "T" => case.count.into(),
        "dossier number" => case.dossier,
        "a" => a,
        "b" => b,
        "c" => c,
        "d" => d,
        "e" => e,
        "f" => f,
        "STP" => stp,
        "surface water" => water,
        "air" => air,
        "soil" => soil,
        _ => panic!("FORMAT has a field of a record that is not known here: {name}"),
    }
}

/// What a field of the trailer of n records holds, by its name.
fn of_count(name: &str, n: u64) -> u64 {
    match name {
        "distance" => 96 * n,
        "number of records" => n,
        "edition" => 1,
        _ => panic!("FORMAT has a field of the trailer that is not known here: {name}"),
    }
}

#[test]
fn every_byte_is_of_one_printed_field() {
    for (fields, size) in [(of_record(), RECORD), (of_trailer(), TRAILER)] {
        let mut times = vec![0; size];
        for field in &fields {
            times[field.offset..field.offset + field.width].iter_mut().for_each(|time| *time += 1);
        }
        assert_eq!(times, vec![1; size]);
    }
}

#[test]
fn an_emptied_buffer_field_by_field() {
    let mut random = Random::new(601);
    for size in TRAILER..300 {
        let content = random.bytes(size);
        let mut buffer = Guarded::new(&content, &mut random);
        assert_eq!(calls::empty(buffer.buffer()), (0, 16));
        put(buffer.image(), 0, &of_trailer(), |name| of_count(name, 0));
        assert!(buffer.agrees(), "{size} bytes");
    }
}

/// Files a case behind n records of any content, with so many bytes behind the used length.
fn file(n: u64, behind: usize, case: &Case, random: &mut Random) {
    let start = RECORD * n as usize;
    let used = (start + TRAILER) as u64;
    let content = [random.bytes(start), archive::trailer(n), random.bytes(behind)].concat();
    let mut buffer = Guarded::new(&content, random);
    let figures = equations::work_out(&case.encode()).expect("a case within the ranges");

    assert_eq!(calls::file(buffer.buffer(), used, &case.encode()), (0, n, used + 96), "{case:?}");
    put(buffer.image(), start, &of_record(), |name| of_case(name, case, figures));
    put(buffer.image(), start + RECORD, &of_trailer(), |name| of_count(name, n + 1));
    assert!(buffer.agrees(), "record {n}, {behind} bytes behind, {case:?}");
}

#[test]
fn a_filing_field_by_field() {
    let mut random = Random::new(602);
    let kinds_and_rows = cases::kinds_and_rows();
    for round in 0..6000 {
        let (kind, row) = kinds_and_rows[round % kinds_and_rows.len()];
        let case = cases::valid_of(kind, row, &mut random);
        file(random.below(40), RECORD + random.below(900) as usize, &case, &mut random);
    }
    // Numbers of records whose trailer takes another byte, or the last record that there may be.
    for n in [254, 255, 256, 681, 682, 65_534, 65_535, 65_536, 999_999] {
        file(n, RECORD, &cases::valid(&mut random), &mut random);
    }
}
