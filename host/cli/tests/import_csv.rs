//! CSV: what `import` takes for it, what it says of a line that is wrong, and what `list --csv` writes for it.

mod common;
use common::{archive_of_records, archive_with, csv, of_every_row, p1, record, words, Place, COLUMNS};
use csorvelin_differential::{cases, random::Random};
use csorvelin_model::archive;
use csorvelin_model::binary64;
use csorvelin_model::case::Case;
use csorvelin_model::ranges;

/// Imports a text into a new archive.
fn imported(place: &Place, text: &[u8]) -> Vec<u8> {
    place.write("archive", &archive::trailer(0));
    place.write("cases.csv", text);
    let ran = place.run(&["import", "archive", "cases.csv"]);
    assert_eq!(ran.ends(0).err, "");
    place.read("archive")
}

/// The text with its cells changed, and another separator between them.
fn changed(text: &str, separator: &str, cell: impl Fn(&str) -> String) -> String {
    let line = |line: &str| line.split(',').map(&cell).collect::<Vec<_>>().join(separator);
    text.lines().map(|text| line(text) + "\n").collect()
}

#[test]
fn the_same_cases_in_other_dress() {
    let place = Place::new("csv_dress");
    let cases = of_every_row(2, &mut Random::new(421));
    let (plain, expected) = (csv(&cases), archive_with(&cases));
    let quoted = |cell: &str| format!("\"{cell}\"");
    let (header, lines) = plain.split_once('\n').unwrap();
    let backwards = |line: &str| line.split(',').rev().collect::<Vec<_>>().join(",") + "\n";
    let spreadsheet = changed(&plain, ";", quoted).replace('\n', "\r\n");
    let dresses = [
        plain.clone(),
        plain.trim_end().to_string(),
        plain.replace('\n', "\r\n"),
        format!("\u{feff}{plain}"),
        format!("\u{feff}{spreadsheet}"),
        changed(&plain, ";", str::to_string),
        changed(&plain, ",", quoted),
        changed(&plain, " ,\t", quoted),
        changed(&plain, " , ", str::to_string),
        format!("{}\n{lines}", header.to_uppercase()),
        format!("{}\n{lines}", header.to_lowercase()),
        plain.lines().map(backwards).collect(),
        plain.replace('\n', "\n\n \r\n"),
        format!("\n\n{plain}\n\n"),
    ];
    for text in dresses {
        assert!(imported(&place, text.as_bytes()) == expected, "{}", &text[..300]);
    }
    place.write("archive", &archive::trailer(0));
    place.run_on(spreadsheet.as_bytes(), &["import", "archive", "-"]).ends(0);
    assert!(place.read("archive") == expected);
}

/// A column that no line needs may be left out; the route is 1 unless given.
#[test]
fn columns_may_be_left_out() {
    let place = Place::new("csv_columns");
    assert_eq!(imported(&place, b"dossier,c,b,a,kind,row\n7,1,0,100,4,1\n"), archive_with(&[p1()]));
    assert_eq!(imported(&place, b"kind,row,route,dossier,a,b,c\n4,1,,7,1e2,0,1\n"), archive_with(&[p1()]));
    assert_eq!(imported(&place, b"record,kind,row,dossier,a,b,c\n12,4,1,7,100,0.0,0x3ff0000000000000\n").len(), 112);
}

#[test]
fn a_header_that_is_wrong_is_named_with_its_line() {
    let place = Place::new("csv_headers");
    place.archive("archive");
    let headers: [(&[u8], u32, &str); 11] = [
        (b"", 1, "there is no header line"),
        (b"\n\n  \n", 1, "there is no header line"),
        (b"kind,colour\n4,1\n", 1, "there is no column 'colour': the columns are record, kind, row,"),
        (b"\n\r\nkind,colour\n4,1\n", 3, "there is no column 'colour'"),
        (b"kind,row,Kind\n4,1,4\n", 1, "column kind stands twice"),
        (b"kind\trow\n4\t1\n", 1, "there is no column 'kind\\trow'"),
        (b"kind,row\r4,1\r", 1, "there is no column 'row\\r4'"),
        (b"kind,\"row\n", 1, "a quote is not closed in its line"),
        (b"kind,r\xf6w\n4,1\n", 1, "the line is not UTF-8"),
        (b"\n4,1,1,0,0,7,100,0,1,,,\n", 2, "there is no column '4'"),
        (b"kind,\x1b[2Jrow\n4,1\n", 1, "there is no column '\\u{1b}[2Jrow'"),
    ];
    for (text, line, said) in headers {
        place.write("cases.csv", text);
        let ran = place.run(&["import", "archive", "cases.csv", "--keep-going"]);
        assert!(ran.ends(65).err.starts_with(&format!("cases.csv:{line}: {said}")), "{}", ran.err);
        assert_eq!(ran.err.lines().count(), 1, "{}", ran.err);
        assert_eq!(ran.out, "1 offered, 1 refused, none filed; archive is as it was\n");
    }
    let ran = place.run(&["import", "archive", "-"]);
    assert_eq!(ran.ends(65).err, "standard input:1: there is no header line\n");
    assert_eq!(place.read("archive"), archive::trailer(0));
}

/// LDPE in a partially open process.
fn ldpe() -> Case {
    let patterns = [0.5, 0.25, 0.125, 0., 0., 0.].map(f64::to_bits);
    Case { kind: 8, row: 1, user: 2, count: 250, patterns, ..p1() }
}

/// Plastics: the user is the process, and a polymer that has no usage for it is named with those that it has.
#[test]
fn plastics_from_a_table() {
    let place = Place::new("csv_plastics");
    let header = "kind,row,user,T,dossier,a,b,c";
    assert_eq!(imported(&place, format!("{header}\n8,1,2,250,7,0.5,0.25,0.125\n").as_bytes()), archive_with(&[ldpe()]));
    let lines = [
        (
            "8,1,1,250,8,0.5,0.25,0.125",
            "refused 31: the polymer has no usage for this process: user: found 1 (open process), \
             allowed 2 (partially open process) or 3 (closed process) for kind 8 row 1 (LDPE)",
        ),
        (
            "8,,2,250,8,0.5,0.25,0.125",
            "refused 3: the row is not among the kind's: row: found 0 (not given), allowed 1 to 18 for kind 8 (LDPE to Epoxy resins)",
        ),
        (
            "8,1,2,,8,0.5,0.25,0.125",
            "refused 6: the count T is not allowed for this kind and row: T: found 0 (not given), \
             allowed 1 to 366 for kind 8 row 1 (emission days per year)",
        ),
        ("8,1,2,250,8,0.5,,0.125", "not given: b (fraction to air); --blank-as-zero counts it as 0"),
        (
            "8,1,2,250,8,0.5,1,0.125",
            "refused 11: the fractions to the compartments add up to more than 1: b + c: found 1.125, \
             allowed at most 1, each addition rounded in binary64",
        ),
        (
            "8,1,2,1,7,0,0,0",
            "refused 22: the same filing is already held: kind, row, route, user, dossier: found held as record 0, \
             allowed another kind, row, route, user or dossier: these five make a filing",
        ),
    ];
    let before = place.read("archive");
    for (line, said) in lines {
        place.write("cases.csv", format!("{header}\n{line}\n").as_bytes());
        let ran = place.run(&["import", "archive", "cases.csv"]);
        assert_eq!(ran.ends(65).err, format!("cases.csv:2: {said}\n"));
        assert_eq!(place.read("archive"), before);
    }
}

/// Each wrong line is named by its number and why; those around it are taken where some may be left out.
#[test]
fn a_line_that_is_wrong_is_named_and_no_other() {
    let place = Place::new("csv_lines");
    let wrong: [(&[u8], &str); 26] = [
        (b"4,1", "the line has 2 cells, the header 6"),
        (b"4,1,7,100,0,1,", "the line has 7 cells, the header 6"),
        (b"4;1;7;100;0;1", "the line has 1 cell, the header 6"),
        // A decimal comma is no point.
        (b"4,1,7,0,5,0,1", "the line has 7 cells, the header 6"),
        (b"4,1,7,\"0,5 t\",0,1", "field a: '0,5 t' is neither a decimal number nor a pattern; write a decimal point,"),
        (b"4,1,7,1.000.000,0,1", "field a: '1.000.000' is neither"),
        (b"4,1,7,1 000,0,1", "field a: '1 000' is neither"),
        (b"4,1,7,\" 1\",0,1", "field a: ' 1' is neither"),
        (b"4,1,7,much,0,1", "field a: 'much' is neither"),
        (b"4,1,7,nan,0,1", "field a: 'nan' is neither"),
        (b"4,1,7,inf,0,1", "field a: 'inf' is neither"),
        (b"4,1,7,1e400,0,1", "field a: '1e400' is beyond binary64"),
        (b"4,1,7,1e-400,0,1", "field a: '1e-400' is nearer to 0 than to any other binary64 number"),
        (
            b"4,1,7,0x10000000000000000,0,1",
            "field a: '0x10000000000000000' is not a pattern: 0x and 16 hexadecimal digits",
        ),
        (b"4.0,1,7,1,0,1", "field kind: '4.0' is not a whole number"),
        (b"-4,1,7,1,0,1", "field kind: '-4' is not a whole number"),
        (b"256,1,7,1,0,1", "field kind: '256' does not fit: at most 255"),
        (b"4,1,18446744073709551616,1,0,1", "field dossier: '18446744073709551616' does not fit: at most"),
        (b"4,1,1e3,1,0,1", "field dossier: '1e3' is not a whole number"),
        (b"4,1,7,\"1,0,1", "a quote is not closed in its line"),
        (b"4,1,7,\"1\"0,0,1", "something stands behind a cell in quotes"),
        (b"4,1,7,1\xe9,0,1", "the line is not UTF-8"),
        (b"4,1,7,\x1b[31m\x07,0,1", "field a: '\\u{1b}[31m\\u{7}' is neither"),
        (b"4,1,,1,0,1", "refused 7: the dossier number is 0: dossier: found 0 (not given), allowed 1 or more"),
        (b",1,7,1,0,1", "refused 2: the kind is not one of 1 to 8: kind: found 0 (not given), allowed 1 to 8"),
        (
            b"4,,7,1,0,1",
            "refused 6: the count T is not allowed for this kind and row: T: found 0 (not given, nor is row,",
        ),
    ];
    let mut text = b"kind,row,dossier,a,b,c\n".to_vec();
    let good: Vec<Case> = (1..=27).map(|dossier| Case { dossier, ..p1() }).collect();
    for (Case { dossier, .. }, line) in good.iter().zip(wrong.iter().map(|(line, _)| line).chain([&&b""[..]])) {
        text.extend(format!("4,1,{dossier},100,0,1\n").as_bytes());
        text.extend_from_slice(line);
        text.push(b'\n');
    }
    place.archive("archive");
    place.write("cases.csv", &text);
    let said = |options: &[&str]| {
        let ran = place.run(&words(&["import", "archive", "cases.csv"], options));
        assert_eq!(ran.ends(65).err.lines().count(), wrong.len(), "{}", ran.err);
        for ((said, (_, why)), line) in ran.err.lines().zip(wrong).zip((3..).step_by(2)) {
            assert!(said.starts_with(&format!("cases.csv:{line}: {why}")), "{said}");
        }
        ran.out
    };
    let none = "53 offered, 26 refused, none filed; archive is as it was; --keep-going would file 27\n";
    assert_eq!(said(&[]), none);
    assert_eq!(place.read("archive"), archive::trailer(0));
    assert_eq!(said(&["--keep-going"]), "53 offered, 26 refused, 27 filed in archive as records 0 to 26\n");
    assert_eq!(place.read("archive"), archive_with(&good));
}

/// What no line feed ends is not read on for ever; what stands behind it is not known, so nothing of the file is taken.
#[test]
fn a_line_that_is_too_long_ends_the_reading() {
    let place = Place::new("csv_long");
    place.archive("archive");
    let text = format!("{}4,1,1,0,0,8,{}1,0,1,,,\n{}", csv(&[p1()]), "0".repeat(70_000), "4,1,1,0,0,9,1,0,1,,,\n");
    place.write("cases.csv", text.as_bytes());
    let ran = place.run(&["import", "archive", "cases.csv", "--keep-going"]);
    assert!(ran.ends(65).err.starts_with("cases.csv:3: a line of over 65536 bytes is no CSV; "), "{}", ran.err);
    assert!(ran.err.ends_with("; nothing of this file is taken\n") && ran.err.lines().count() == 1, "{}", ran.err);
    assert_eq!(place.read("archive"), archive_with(&[]));
    // The longest that is read.
    let zeros = "0".repeat(65_535 - "4,1,1,0,0,8,1,0,1,,,".len());
    place.write("cases.csv", format!("{}4,1,1,0,0,8,{zeros}1,0,1,,,\n", csv(&[])).as_bytes());
    place.run(&["import", "archive", "cases.csv"]).ends(0);
    assert_eq!(place.read("archive").len(), 16 + 96);
}

/// Where one number has a decimal comma a point may be a thousands separator, and 1.250 would be filed as 1.25.
#[test]
fn a_decimal_comma_refuses_the_whole_file() {
    let place = Place::new("csv_comma");
    place.archive("archive");
    let before = place.read("archive");
    place.write("cases.csv", b"kind;row;dossier;a;b;c\n4;1;21;1.250;0;1\n4;1;22;12.500;0;1\n4;1;23;950,5;0;1\n");
    place.write("other.csv", b"kind,row,dossier,a,b,c\n4,1,24,5,0,1\n");
    let ran = place.run(&["import", "archive", "cases.csv", "--keep-going"]);
    let said = "cases.csv:4: 950,5 has a decimal comma: write points, and no thousands separators; nothing of this file is taken\n";
    assert_eq!((ran.ends(65).err.as_str(), place.read("archive")), (said, before));
    // As a spreadsheet writes it, in quotes, and in a figure too.
    for comma in ["1.250,5", "1,25E+06", "-0,5", "1,5e3"] {
        for line in [format!("4;1;23;{comma};0;1;"), format!("4;1;23;1;0;1;\"{comma}\"")] {
            place.write("comma.csv", format!("kind;row;dossier;a;b;c;stp\n4;1;21;1.250;0;1;\n{line}\n").as_bytes());
            let ran = place.run(&["import", "archive", "comma.csv", "--keep-going"]);
            assert!(ran.ends(65).err.starts_with(&format!("comma.csv:3: {comma} has a decimal comma")), "{}", ran.err);
            assert_eq!(ran.out, "2 offered, 1 refused, none filed; archive is as it was\n");
        }
    }
    // Another file is judged by itself.
    let ran = place.run(&["import", "archive", "cases.csv", "other.csv", "--keep-going"]);
    assert_eq!(ran.ends(65).out, "4 offered, 1 refused, 1 filed in archive as record 0\n");
}

/// As a spreadsheet leaves them: columns without a name behind the others, and lines of separators.
#[test]
fn columns_without_a_name_hold_nothing() {
    let place = Place::new("csv_nameless");
    let text = b"kind,row,dossier,a,b,c,,\n,,,,,,,\n4,1,7,100,0,1,,\n,,,,,,,\n";
    assert_eq!(imported(&place, text), archive_with(&[p1()]));
    assert_eq!(imported(&place, b",kind,row,,dossier,a,b,c\n,4,1,,7,100,0,1\n"), archive_with(&[p1()]));
    // Whatever stands there is not passed over, whichever of them it is.
    let before = place.read("archive");
    for line in ["4,1,8,100,0,1,x,", "4,1,8,100,0,1,,x", "4,1,8,1,5,0,1,"] {
        place.write("cases.csv", format!("kind,row,dossier,a,b,c,,\n{line}\n").as_bytes());
        let ran = place.run(&["import", "archive", "cases.csv", "--keep-going"]);
        assert_eq!(ran.ends(65).err, "cases.csv:2: a cell stands under a column without a name\n");
        assert_eq!(place.read("archive"), before);
    }
}

#[test]
fn figures_and_exact_values_must_be_the_case_s() {
    let place = Place::new("csv_figures");
    place.archive("archive");
    let sum = "0.1000000000000000055511151231257827021181583404541015625";
    let lines = [
        ("7,100,0,0.1,7692308,0,0,0,100,0,SUM,,,", None),
        ("8,100,0,0.1,,,,,,,,,,", None),
        ("9,100,0,0.1,7692308,,,,,,SUM,,,", None),
        ("10,100,0,0.1,7692307,,,,,,,,,", Some("stp is 7692307 µg in the line, its case gives 7692308 µg")),
        ("11,100,0,0.1,7692308.0,,,,,,,,,", Some("stp is 7692308.0 µg in the line, its case gives 7692308 µg")),
        ("12,100,0,0.1,7693,,,,,,,,,", Some("stp is 7693 µg in the line, its case gives 7692308 µg")),
        ("13,100,0,0.1,,1,,,,,,,,", Some("surface is 1 µg in the line, its case gives 0 µg")),
        ("14,100,0,0.1,,,2,,,,,,,", Some("air is 2 µg in the line, its case gives 0 µg")),
        ("15,100,0,0.1,,,,many,,,,,,", Some("soil is many µg in the line, its case gives 0 µg")),
        ("16,100,0,0.1,,,,,,,0.1,,,", Some("c_exact is 0.1 in the line, but c is taken as SUM")),
        ("17,100,0,0.1,,,,,101,,,,,", Some("a_exact is 101 in the line, but a is taken as 100")),
        ("18,100,0,0.1,,,,,,,,,,1", Some("f_exact is 1 in the line, but f is taken as 0")),
    ];
    let header = "dossier,a,b,c,stp,surface,air,soil,a_exact,b_exact,c_exact,d_exact,e_exact,f_exact";
    let mut text = format!("{header},kind,row\n");
    lines.iter().for_each(|(line, _)| text += &format!("{},4,1\n", line.replace("SUM", sum)));
    place.write("cases.csv", text.as_bytes());
    let ran = place.run(&["import", "archive", "cases.csv", "--keep-going"]);
    let said = (2..).zip(lines).filter_map(|(line, (_, why))| Some(format!("cases.csv:{line}: {}\n", why?)));
    assert_eq!(ran.ends(65).err, said.collect::<String>().replace("SUM", sum));
    assert_eq!(ran.out, "12 offered, 9 refused, 3 filed in archive as records 0 to 2\n");
    let tenth = |dossier| Case { dossier, patterns: [100., 0., 0.1, 0., 0., 0.].map(f64::to_bits), ..p1() };
    assert_eq!(place.read("archive"), archive_with(&[tenth(7), tenth(8), tenth(9)]));
}

#[test]
fn list_writes_all_fields_figures_and_exact_values() {
    let place = Place::new("csv_written");
    let patterns = [0.71, 0.5, 0., 0., 0., 0.].map(f64::to_bits);
    let tiny = [1, 0, 0x3fe6b851eb851eb8, 0, 0, 0];
    let hygiene = Case { kind: 6, row: 1, dossier: u64::MAX, patterns, ..p1() };
    let leaching = Case { kind: 2, row: 3, route: 2, patterns: tiny, ..p1() };
    let toilets = Case { kind: 7, row: 0, count: 100, patterns: [0; 6], ..p1() };
    place.write("archive", &archive_with(&[p1(), hygiene, leaching, toilets, ldpe()]));
    let exact = "0.70999999999999996447286321199499070644378662109375";
    let expected = format!(
        "record,{COLUMNS},stp,surface,air,soil,a_exact,b_exact,c_exact,d_exact,e_exact,f_exact\n\
         0,4,1,1,0,0,7,100,0,1,,,,76923077,0,0,0,100,0,1,,,\n\
         1,6,1,1,0,0,18446744073709551615,0.71,0.5,,,,,3024600000,0,0,0,{exact},0.5,,,,\n\
         2,2,3,2,0,0,7,5e-324,,0.71,,,,0,1,0,0,1/2^1074,,{exact},,,\n\
         3,7,0,1,0,100,7,0,0,0,0,0,,0,0,0,0,0,0,0,0,0,\n\
         4,8,1,1,2,250,7,0.5,0.25,0.125,,,,5775000000000,0,11550000000000,0,0.5,0.25,0.125,,,\n"
    );
    assert_eq!(place.run(&["list", "archive", "--csv"]).ends(0).out, expected);
    assert_eq!(place.run_on(&place.read("archive"), &["list", "--csv", "-"]).ends(0).out, expected);
}

/// What `list --csv` writes, `import` reads back to the same bytes: every kind and row, quantities of every size.
#[test]
fn what_list_writes_is_read_back() {
    let place = Place::new("csv_back");
    let mut random = Random::new(422);
    let mut cases = of_every_row(20, &mut random);
    for (index, limit) in ranges::listed(7, 0).iter().map(|listed| (listed.index, listed.limit as f64)) {
        let ends = [0, 1, 2, (1 << 52) - 1, 1 << 52, 1e-300f64.to_bits(), 1e-6f64.to_bits(), 1e-7f64.to_bits()];
        for pattern in ends.into_iter().chain([limit.to_bits(), limit.to_bits() - 1]) {
            let mut case = Case { dossier: cases.len() as u64 + 1, ..cases::valid_of(7, 0, &mut random) };
            case.patterns[index] = pattern;
            cases.push(case);
        }
    }
    let mut large = Case { kind: 5, row: 0, count: 366, dossier: u64::MAX, patterns: [0; 6], ..p1() };
    [large.patterns[0], large.patterns[1], large.patterns[4]] = [1e6, 1., 1.].map(f64::to_bits);
    cases.push(large);
    let archive = archive_with(&cases);
    place.write("archive", &archive);
    let text = place.run(&["list", "archive", "--csv"]).ends(0).out.clone();
    assert_eq!(text.lines().count(), cases.len() + 1);
    assert!(imported(&place, text.as_bytes()) == archive);
    // A spreadsheet's dress, and the other way round.
    assert!(imported(&place, changed(&text, ";", |cell| format!("\"{cell}\"")).as_bytes()) == archive);
    let mut lines: Vec<&str> = text.lines().collect();
    lines[1..].reverse();
    cases.reverse();
    assert!(imported(&place, lines.join("\n").as_bytes()) == archive_with(&cases));
}

/// Records that no call would have filed are written so that they are read back as they are, and then refused.
#[test]
fn records_that_no_call_would_have_filed_are_refused_by_their_number() {
    let place = Place::new("csv_refused");
    let mut random = Random::new(423);
    let with = |index: usize, pattern: u64| {
        let mut case = p1();
        case.patterns[index] = pattern;
        case
    };
    let mut cases = vec![
        with(0, f64::NAN.to_bits()),
        with(0, 0x7ff0_0000_0000_0001),
        with(1, f64::NEG_INFINITY.to_bits()),
        with(2, (-0.5f64).to_bits()),
        with(3, 1 << 63),
        with(4, 1),
        with(5, f64::MAX.to_bits()),
        Case { kind: 0, ..p1() },
        Case { kind: 255, row: 255, route: 255, user: 255, count: u32::MAX, dossier: 0, patterns: [u64::MAX; 6] },
    ];
    cases.extend((0..500).map(|_| cases::damaged(&mut random)));
    cases.retain(|case| ranges::refusal(&case.encode()) != 0);
    assert!(cases.len() > 300);
    let held = |case: &Case| archive::record(&case.encode(), &[1, 2, 3, u64::MAX]);
    place.write("damaged", &archive_of_records(&cases.iter().map(held).collect::<Vec<_>>()));
    let text = place.run(&["list", "damaged", "--csv"]).ends(0).out.clone();
    for (line, case) in text.lines().skip(1).zip(&cases) {
        assert_eq!(patterns_of(line), case.patterns, "{line}");
    }
    place.archive("archive");
    let ran = place.run_on(text.as_bytes(), &["import", "archive", "-"]);
    assert_eq!(ran.ends(65).err.lines().count(), cases.len());
    for ((said, case), line) in ran.err.lines().zip(&cases).zip(2..) {
        let number = ranges::refusal(&case.encode());
        assert!(said.starts_with(&format!("standard input:{line}: refused {number}: ")), "{case:?}\n{said}");
    }
    assert_eq!(place.read("archive"), archive::trailer(0));
}

/// The patterns in the columns a to f of a line that `list --csv` wrote, read by other means than the command's.
fn patterns_of(line: &str) -> [u64; 6] {
    let cells: Vec<&str> = line.split(',').collect();
    let pattern = |cell: &str| match cell.strip_prefix("0x") {
        Some(digits) => u64::from_str_radix(digits, 16).unwrap(),
        None if cell.is_empty() => 0,
        None => cell.parse::<f64>().unwrap().to_bits(),
    };
    [7, 8, 9, 10, 11, 12].map(|place| pattern(cells[place]))
}

/// A record whose figures were changed is written as it is, and its line is not filed.
#[test]
fn changed_figures_are_not_read_back() {
    let place = Place::new("csv_changed");
    for figure in 0..4 {
        let mut bytes = archive_with(&[p1()]);
        bytes[64 + 8 * figure] ^= 2;
        place.write("changed", &bytes);
        let text = place.run(&["list", "changed", "--csv"]).ends(0).out.clone();
        place.write("archive", &archive::trailer(0));
        let ran = place.run_on(text.as_bytes(), &["import", "archive", "-"]);
        let name = ["stp", "surface", "air", "soil"][figure];
        assert!(ran.ends(65).err.starts_with(&format!("standard input:2: {name} is ")), "{}", ran.err);
        assert_eq!(place.read("archive"), archive::trailer(0));
    }
}

#[test]
fn the_exact_columns_are_the_model_s() {
    let place = Place::new("csv_exact");
    let cases = of_every_row(3, &mut Random::new(424));
    place.write("archive", &archive_with(&cases));
    let text = place.run(&["list", "archive", "--csv"]).ends(0).out.clone();
    let mut seen = 0;
    for (line, case) in text.lines().skip(1).zip(&cases) {
        let exact: Vec<&str> = line.split(',').skip(17).collect();
        for listed in ranges::listed(case.kind, case.row) {
            let value = binary64::exact(case.patterns[listed.index]);
            let fraction = value.to_string();
            let decimal = value.exact_decimal(1100).unwrap();
            let cell = exact[listed.index];
            assert!(cell == fraction || cell == decimal, "{cell} for {fraction}");
            seen += 1;
        }
    }
    assert!(seen > 250);
}

#[test]
fn ten_thousand_lines() {
    let place = Place::new("csv_many");
    let mut random = Random::new(425);
    let cases: Vec<Case> = (1..=10_000).map(|dossier| Case { dossier, ..cases::valid(&mut random) }).collect();
    let archive = archive_of_records(&cases.iter().map(record).collect::<Vec<_>>());
    assert!(imported(&place, csv(&cases).as_bytes()) == archive);
}
