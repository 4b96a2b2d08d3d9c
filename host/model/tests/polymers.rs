//! The model's polymers against the printed table, and the printed table against itself.

mod printed;
use csorvelin_model::ratio::Ratio;
use csorvelin_model::tables::{usage, DefaultValue, POLYMER_ROWS, PROCESSES};
use printed::{polymers, Polymer};

#[test]
fn every_cell_is_the_printed_one() {
    let printed = polymers();
    assert_eq!((printed.len(), POLYMER_ROWS.len()), (18, 18));
    let mut held = 0;
    for ((row, line), (ours, theirs)) in (1..).zip(250..).zip(POLYMER_ROWS.iter().zip(&printed)) {
        assert_eq!((ours.row, ours.name), (row, theirs.name));
        for (process, printed) in (1..).zip(theirs.usages) {
            let own = usage(row, process);
            let value = own.map(|usage| usage.value());
            assert_eq!(value, printed.map(Ratio::whole), "{}, {}", ours.name, PROCESSES[usize::from(process) - 1]);
            let source = format!("004, 3.3, Table 3.1, l. {line}");
            assert!(own.is_none_or(|DefaultValue { source: own, .. }| own == source), "{}", ours.name);
            held += u32::from(own.is_some());
        }
    }
    assert_eq!(held, 34);
}

/// docs/FORMAT.md, from which a figure is worked again without the software, has the table too.
#[test]
fn the_format_page_has_the_printed_table() {
    let page = include_str!("../../../docs/FORMAT.md").lines();
    let lines = page.skip_while(|line| !line.starts_with("| row | polymer |")).skip(2);
    let lines: Vec<&str> = lines.take_while(|line| line.starts_with('|')).collect();
    let expected = (1..).zip(polymers()).map(|(row, Polymer { name, usages, .. })| {
        let [open, partially_open, closed] =
            usages.map(|cell| cell.map_or("–".to_string(), |usage| usage.to_string()));
        format!("| {row} | {name} | {open} | {partially_open} | {closed} |")
    });
    assert_eq!(lines, expected.collect::<Vec<_>>());
}

/// docs/DEFAULTS.md has each line with its usages; its quotes have a space where the copy has tabs.
#[test]
fn the_defaults_page_has_the_printed_table() {
    let page = include_str!("../../../docs/DEFAULTS.md").lines();
    let lines: Vec<&str> = page.filter(|line| line.starts_with("| row ") && line.contains("| No. 2 |")).collect();
    let expected = (1..).zip(250..).zip(polymers()).map(|((row, number), Polymer { line, usages, .. })| {
        let named = ["open", "partially open", "closed"].into_iter().zip(usages);
        let named = named.filter_map(|(process, usage)| Some(format!("{process} {}", usage?)));
        let named = named.collect::<Vec<_>>().join(", ");
        let quote = line.split('\t').filter(|cell| !cell.is_empty()).collect::<Vec<_>>().join(" ");
        let place = format!("No. 2 | 004, 3.3, Table 3.1, l. {number}");
        format!("| row {row}: {named} | {place} | `{quote}` | `polymers` | by row and process |")
    });
    assert_eq!(lines, expected.collect::<Vec<_>>());
}

#[test]
fn there_is_no_usage_beside_the_table() {
    for (row, process) in [(0, 3), (19, 3), (255, 3), (6, 0), (6, 4), (6, 255)] {
        assert!(usage(row, process).is_none(), "row {row}, process {process}");
    }
}

/// A usage stands exactly where its process has a percentage, and the percentages of a polymer make 100.
#[test]
fn percentages_and_usages_belong_together() {
    for Polymer { name, percentages, usages, .. } in polymers() {
        assert_eq!(percentages.map(|cell| cell.is_some()), usages.map(|cell| cell.is_some()), "{name}");
        assert_eq!(percentages.into_iter().flatten().sum::<u64>(), 100, "{name}");
    }
}

/// Tonnes used on a site for a thousand tonnes used in all, in tenths: the same for every polymer in an open and in a
/// partially open process; in a closed one of two numbers.
fn tenths(row: usize) -> [u64; 3] {
    [130, 370, if matches!(row, 1..=5 | 7 | 8) { 62 } else { 67 }]
}

/// Rounded to three digits, a half up; below 100 to a whole number.
fn three_digits(thousandths: u64) -> u64 {
    let mut unit = 1;
    while thousandths >= 1_000_000 * unit {
        unit *= 10;
    }
    (thousandths + 500 * unit) / (1000 * unit) * unit
}

/// Each usage is its share of the tonnage times the number of its process: a digit that was misread on either side shows.
#[test]
fn usages_follow_from_tonnage_and_percentage() {
    for (row, Polymer { name, tonnage, percentages, usages, .. }) in (1..).zip(polymers()) {
        for ((percentage, usage), tenths) in percentages.into_iter().zip(usages).zip(tenths(row)) {
            let expected = percentage.map(|percentage| three_digits(tonnage * percentage * tenths));
            assert_eq!(usage, expected, "{name}");
        }
    }
}

#[test]
fn rounding_to_three_digits() {
    let rounded = [38_999, 39_499, 39_500, 604_500, 999_499, 999_500, 2_132_800, 23_117_600].map(three_digits);
    assert_eq!(rounded, [39, 39, 40, 605, 999, 1000, 2130, 23_100]);
}
