//! Table 3.1 of document 004, section 3.3, as it is printed.
// Each test that takes this module uses a part of it.
#![allow(dead_code)]

/// A line of the table: tonnage in thousands of tonnes; percentages and usages by process, none where a cell is blank.
pub struct Polymer {
    pub line: &'static str,
    pub name: &'static str,
    pub tonnage: u64,
    pub percentages: [Option<u64>; 3],
    pub usages: [Option<u64>; 3],
}

/// The polymers in the order of the table.
pub fn polymers() -> Vec<Polymer> {
    let lines = include_str!("../004-table-3.1.tsv").lines().filter(|line| !line.starts_with('#'));
    lines.map(polymer).collect()
}

fn polymer(line: &'static str) -> Polymer {
    let cells: Vec<&str> = line.split('\t').collect();
    let [name, tonnage, percentages @ .., open, partially_open, closed] = &cells[..] else { panic!("{line}") };
    let percentages = percentages.iter().map(|cell| (!cell.is_empty()).then(|| percentage(cell)));
    Polymer {
        line,
        name,
        tonnage: whole(tonnage),
        percentages: percentages.collect::<Vec<_>>().try_into().expect("three percentages"),
        usages: [open, partially_open, closed].map(|cell| (!cell.is_empty()).then(|| whole(cell))),
    }
}

fn percentage(cell: &str) -> u64 {
    whole(cell.strip_suffix('%').unwrap_or_else(|| panic!("{cell} without %")))
}

/// A whole number; one of four digits or more is printed with a comma before the last three.
fn whole(cell: &str) -> u64 {
    let number = match cell.split_once(',') {
        Some((thousands, rest)) if rest.len() == 3 => format!("{thousands}{rest}"),
        Some(_) => panic!("{cell}"),
        None => cell.to_string(),
    };
    assert!(number.bytes().all(|byte| byte.is_ascii_digit()), "{cell}");
    assert_eq!(number.len() > 3, cell.contains(','), "{cell}");
    number.parse().expect("a whole number")
}
