//! Output and exit status of the commands that need no archive.

mod common;
use common::{Place, P1};

fn with<'a>(command: &'a str, fields: &[&'a str]) -> Vec<&'a str> {
    [&[command], fields].concat()
}

#[test]
fn work_out_prints_the_values_taken_and_the_figures() {
    let place = Place::new("work_out");
    let ran = place.run(&with("work-out", &SHORT));
    let expected = "\
kind     4  sanitary use, by tonnage
row      1  defaults of the document
route    1  to the sewage treatment plant (STP)
dossier  7
a        100 (0x4059000000000000)  EU tonnage, t per year
b        0 (not given, counted as 0)  fraction disintegrated
c        1 (0x3ff0000000000000)  fraction to water

stp      76923077 µg per day = 76923.077 mg = 0.076923077 kg
surface  0 µg per day = 0.000 mg = 0.000000000 kg
air      0 µg per day = 0.000 mg = 0.000000000 kg
soil     0 µg per day = 0.000 mg = 0.000000000 kg
";
    ran.ends(0);
    assert_eq!((ran.out.as_str(), ran.err.as_str()), (expected, NOTE));
}

/// P1 without the fraction that is 0.
const SHORT: [&str; 5] = ["kind=4", "row=1", "dossier=7", "a=100", "c=1"];

/// What is said of P1's fraction that is not typed.
const NOTE: &str = "csorvelin: note: b (fraction disintegrated) is not given and counts as 0\n";
const MARK: &str = "b        0 (not given, counted as 0)  fraction disintegrated\n";

#[test]
fn a_quantity_that_is_not_given_is_never_silent() {
    let place = Place::new("not_given");
    place.run(&["new", "archive"]).ends(0);
    let commands: [&[&str]; 5] = [
        &["work-out"],
        &["explain"],
        &["case"],
        &["case", "--out", "p1.case", "--blank-as-zero"],
        &["file", "archive", "--blank-as-zero"],
    ];
    for command in commands {
        let ran = place.run(&[command, &SHORT[..]].concat());
        assert_eq!((ran.ends(0).out.matches("not given").count(), ran.err.as_str()), (1, NOTE), "{command:?}");
        assert!(ran.out.contains(MARK), "{}", ran.out);
    }
    // The same bytes from a file or a record were not typed, so nothing of them was forgotten.
    let by_other_ways: [&[&str]; 3] =
        [&["work-out", "--case", "p1.case"], &["show", "archive", "0"], &["explain", "archive", "0"]];
    for words in by_other_ways {
        let ran = place.run(words);
        assert!(ran.ends(0).out.contains("b        0 (0x0000000000000000)  fraction disintegrated\n"), "{}", ran.out);
        assert_eq!(ran.err, "");
    }
    // Each one that the kind and row carry, and no other.
    let ran = place.run(&["work-out", "kind=6", "dossier=7", "b=1", "e=0"]);
    let noted: Vec<&str> = ran.ends(0).err.lines().map(|line| line.split(' ').nth(2).unwrap()).collect();
    assert_eq!(noted, ["a", "d", "f"]);
}

#[test]
fn json_says_which_quantities_were_given() {
    let place = Place::new("not_given_json");
    let ran = place.run(&[&["work-out", "--json"], &SHORT[..]].concat());
    assert_eq!(ran.ends(0).err, NOTE);
    for quantity in [
        "\"a\":{\"pattern\":\"0x4059000000000000\",\"shortest\":\"100\",\"exact\":\"100\",\"given\":true}",
        "\"b\":{\"pattern\":\"0x0000000000000000\",\"shortest\":\"0\",\"exact\":\"0\",\"given\":false}",
    ] {
        assert!(ran.out.contains(quantity), "{}", ran.out);
    }
    place.run(&[&["case", "--out", "p1.case"], &P1[..]].concat()).ends(0);
    let ran = place.run(&["work-out", "--json", "--case", "p1.case"]);
    assert!(!ran.ends(0).out.contains("given"), "{}", ran.out);
}

#[test]
fn a_decimal_between_two_doubles_is_said_to_be_below_or_above() {
    let place = Place::new("decimals");
    let case = ["work-out", "kind=6", "row=1", "dossier=7", "a=0.71", "b=0.1"];
    let ran = place.run(&case);
    ran.ends(0);
    assert!(ran.out.contains("a        0.71 (0x3fe6b851eb851eb8, below 0.71)  "), "{}", ran.out);
    assert!(ran.out.contains("b        0.1 (0x3fb999999999999a, above 0.1)  "), "{}", ran.out);
    let exact = place.run(&[&case[..], &["--exact"]].concat());
    let taken = "0.71 = 0.70999999999999996447286321199499070644378662109375 (0x3fe6b851eb851eb8, below 0.71)";
    assert!(exact.ends(0).out.contains(taken), "{}", exact.out);
    let exact = place.run(&["work-out", "kind=6", "row=1", "dossier=7", "a=0.75", "b=5e-324", "--exact"]);
    for taken in
        ["a        0.75 (0x3fe8000000000000)  ", "b        5e-324 = 1/2^1074 (0x0000000000000001, below 5e-324)"]
    {
        assert!(exact.ends(0).out.contains(taken), "{}", exact.out);
    }
    let by_pattern = place.run(&["work-out", "kind=6", "row=1", "dossier=7", "a=0x3fe6b851eb851eb8", "b=1e-1"]);
    let figures = |text: &str| text.split_once("\n\n").unwrap().1.to_string();
    assert_eq!(figures(&by_pattern.ends(0).out), figures(&ran.out));
}

#[test]
fn the_calculation_sheet() {
    let place = Place::new("explain");
    let ran = place.run(&with("explain", &P1));
    let expected = "\
equation E = a·0.1·1000·0.002·(1 − b)·c/D  (kg per day)
         [002, Table 3, l. 319]

To the sewage treatment plant (STP):
    a      100    EU tonnage, t per year  [case]
  ×        0.1    fraction for the region  [002, Table 3, l. 303]
  ×        1000   kilograms in a tonne  [002, Table 3, l. 319]
  ×        0.002  fraction of the main source  [002, Table 3, l. 306]
  × 1 − b  1      b is the fraction disintegrated  [case]
  × c      1      fraction to water  [case]
  / D      260    emission days per year  [002, 2.1.4.2, l. 293]
  = 1/13 (= 0.076923076923076923…) kg per day
  = 76923076 + 12/13 µg per day (= 76923076.923076923…), rounded up
  figure 76923077 µg per day = 76923.077 mg = 0.076923077 kg

To surface water: no equation, figure 0

To air: no equation, figure 0

To soil: no equation, figure 0

002  Emission Scenario Document for Product Type 2, Private and public health area disinfectants and
         other biocidal products, EUR 25115 EN, JRC, 2011, ISBN 978-92-79-22399-0, doi:10.2788/29058

Checked: the library and the model give the same four figures.
";
    ran.ends(0);
    let sheet = &ran.out[ran.out.find("equation").unwrap()..];
    assert_eq!(sheet, expected);
}

#[test]
fn sheets_of_every_kind_name_the_exact_fraction() {
    let place = Place::new("explain_kinds");
    let sheets: [(&[&str], &str); 10] = [
        (&["kind=2", "row=3", "a=0.015625", "c=1"], "= 875/584 (= 1.4982876712328767…) kg per day\n"),
        (&["kind=3", "row=3", "user=1", "a=0.015625"], "= 61523437 + 1/2 µg per day (= 61523437.5), rounded up\n"),
        (&["kind=3", "row=7", "user=2", "a=0.015625"], "= 145468750 µg per day, a whole number\n"),
        (&["kind=1", "row=4", "a=0.0009765625", "b=0.001953125", "c=1"], "= 1671/46720 (= 0.0357662671232876"),
        (&["kind=6", "row=1", "a=0.015625", "b=0.5"], "= 213/3200 (= 0.0665625) kg per day\n"),
        (&["kind=7", "row=1", "a=0.03125", "b=0.25", "c=1", "e=1"], "= 125/24 (= 5.2083333333333333…) kg per day\n"),
        (&["kind=5", "T=250", "a=16", "b=0.125", "c=0.5", "d=0.25", "e=0.125"], "= 2 kg per day\n"),
        (&["kind=1", "row=0", "T=31", "a=1", "b=1", "c=1", "d=1"], "= 8000/31 (= 258.06451612903225…) kg per day\n"),
        (
            &["kind=8", "row=18", "user=3", "T=366", "a=1", "b=0", "c=1"],
            "= 40000/183 (= 218.57923497267759…) kg per day\n",
        ),
        (&["kind=8", "row=1", "user=2", "T=250", "a=0.5", "b=0.25", "c=0.125"], "= 11550 kg per day\n"),
    ];
    for (fields, line) in sheets {
        let ran = place.run(&[&["explain", "dossier=7"], fields].concat());
        assert!(ran.ends(0).out.contains(line), "{fields:?}\n{}", ran.out);
        assert!(ran.out.ends_with("give the same four figures.\n"));
    }
}

#[test]
fn sheets_say_what_no_document_prints() {
    let place = Place::new("explain_sources");
    let leaching = place.run(&["explain", "kind=2", "row=3", "dossier=7", "a=1", "c=1"]);
    let parts = [
        "[built from 001, worst case, l. 192–194, and the symbols listed there, l. 196–213; the printed equation is missing",
        "[in no document; from V in L/m2 (001, Table 2, l. 227) and R in kg/m3 (l. 226)]",
        "service life, days  [001, Table 1, l. 162–164, and Table 2, l. 238–239]",
        "\n\n001  \"Leaching from paints, plasters, and fillers applied in urban areas\" (the city scenario)",
    ];
    // A long line goes on, indented, in the next one.
    let unbroken = |text: &str| text.replace("\n         ", " ");
    for part in parts {
        assert!(unbroken(&leaching.ends(0).out).contains(part), "{part}\n{}", leaching.out);
    }
    assert!(!leaching.out.contains("\n000  "), "a document that the sheet does not name\n{}", leaching.out);
    let hygiene = place.run(&["explain", "kind=6", "row=1", "dossier=7", "a=1", "b=1"]);
    for part in ["l. 2020; grams by Table 8, l. 753]", "[000, Table 8, l. 777: 10^-6 with C in g/kg (l. 747)]"] {
        assert!(unbroken(&hygiene.ends(0).out).contains(part), "{part}\n{}", hygiene.out);
    }
}

/// Plastics: two emissions, the usage with its line, and what must be known of it.
#[test]
fn the_sheet_of_plastics() {
    let place = Place::new("explain_plastics");
    let ldpe = ["kind=8", "row=1", "user=2", "T=250", "dossier=7", "a=0.5", "b=0.25", "c=0.125"];
    let ran = place.run(&with("explain", &ldpe));
    let expected = "\
kind     8  plastics makers, by site
row      1  LDPE
route    1  to the sewage treatment plant (STP)
user     2  partially open process
T        250  emission days per year
dossier  7
a        0.5 (0x3fe0000000000000)  active fraction of the plastic
b        0.25 (0x3fd0000000000000)  fraction to air
c        0.125 (0x3fc0000000000000)  fraction to water
equation E = Q·1000·a·b/T to air, Q·1000·a·c/T to water  (kg per day)
         [004, 4.3.1, Table 4.4, l. 442–443, with TONNAGE = Q·1000/T (notes 1, 4, l. 445, 451)]

To the sewage treatment plant (STP):
    Q     23100  usage on site, partially open process, t per year  [004, 3.3, Table 3.1, l. 250]
  ×       1000   kilograms in a tonne  [in no document; from Q in tonnes per year (004, 3.3, Table
         3.1, l. 248) and TONNAGE in kg per day (4.3.1, Table 4.4, l. 421)]
  × a     0.5    active fraction of the plastic  [case]
  × c     0.125  fraction to water  [case]
  / T     250    T, emission days per year  [case]
  = 5775 kg per day
  = 5775000000000 µg per day, a whole number
  figure 5775000000000 µg per day = 5775000000.000 mg = 5775.000000000 kg

To surface water: no equation, figure 0

To air:
    Q     23100  usage on site, partially open process, t per year  [004, 3.3, Table 3.1, l. 250]
  ×       1000   kilograms in a tonne  [in no document; from Q in tonnes per year (004, 3.3, Table
         3.1, l. 248) and TONNAGE in kg per day (4.3.1, Table 4.4, l. 421)]
  × a     0.5    active fraction of the plastic  [case]
  × b     0.25   fraction to air  [case]
  / T     250    T, emission days per year  [case]
  = 11550 kg per day
  = 11550000000000 µg per day, a whole number
  figure 11550000000000 µg per day = 11550000000.000 mg = 11550.000000000 kg

To soil: no equation, figure 0

";
    let (_, sheet) = ran.ends(0).out.split_once('\n').unwrap();
    let (sheet, behind) = sheet.split_at(sheet.find("Note: ").unwrap());
    assert_eq!(sheet, expected);
    let behind = behind.replace("\n         ", " ");
    let said = [
        "\"probably not representative for all of the EU\" (004, l. 244)",
        "totals over handling, compounding and conversion at one site (l. 432–433)",
        "at separate sites, conversion counts as 0 at the first, handling and compounding at the second (l. 449)",
        "default fractions by particle size, volatility and process in 4.3.4 (l. 523–587)",
        "\n004  Supplement to the methodology for risk evaluation of biocides, ",
    ];
    for part in said {
        assert!(behind.contains(part), "{part}\n{behind}");
    }
    assert!(!behind.contains("\n002  "), "a document that the sheet does not name\n{behind}");
    let json = place.run(&[&["explain", "--json"], &ldpe[..]].concat());
    assert!(json.ends(0).out.contains("probably not representative"), "{}", json.out);
}

/// Row 7's volume is for another area than row 7's: said wherever the two are multiplied.
#[test]
fn row_7_is_said_to_be_low() {
    let place = Place::new("row_7");
    let low = "25/7 times as high";
    let sheet = |kind: &str, row: &str, json: &str| {
        let user = if kind == "kind=3" { "user=1" } else { "user=0" };
        let mut words = vec!["explain", kind, row, user, "dossier=7", "a=0.5"];
        words.extend((!json.is_empty()).then_some(json));
        place.run(&words).ends(0).out.contains(low)
    };
    for json in ["", "--json"] {
        assert!(sheet("kind=2", "row=7", json) && sheet("kind=3", "row=7", json));
        assert!(!sheet("kind=1", "row=7", json) && !sheet("kind=2", "row=6", json));
    }
    for words in [&["defaults"][..], &["defaults", "--json"]] {
        assert_eq!(place.run(words).ends(0).out.matches(low).count(), 1);
    }
}

/// Each refusal from the input: number as exit status, field, what was found and what is allowed.
#[test]
fn refusals_name_the_field_and_what_is_allowed() {
    let place = Place::new("refusals");
    place.write("short", &[4; 63]);
    let refusals: [(&[&str], i32, &str, &str); 25] = [
        (&["--case", "short"], 1, "63 bytes", "exactly 64 bytes"),
        (&["kind=9"], 2, "9", "1 to 8"),
        (&["kind=6", "row=6"], 3, "6", "0 to 5 for kind 6"),
        (&["kind=2", "row=2", "route=2"], 4, "2", "1 (to the STP) only for kind 2 row 2"),
        (&["kind=3", "row=3"], 5, "0 (not given)", "1 (professional) or 2 (not professional) for kind 3"),
        (&["kind=1", "row=0", "T=30"], 6, "30", "31 to 36500 for kind 1 row 0 (service life in days)"),
        (&["kind=4", "row=1"], 7, "0 (not given)", "1 or more"),
        (&["kind=4", "row=1", "dossier=0"], 7, "0", "1 or more"),
        (&["row=1"], 2, "0 (not given)", "1 to 8"),
        (&["kind=4", "a=100"], 6, "0 (not given, nor is row, which counts as 0)", "1 to 366 for kind 4 row 0"),
        (&["kind=4", "T=367"], 6, "367 (row is not given and counts as 0)", "1 to 366 for kind 4 row 0"),
        (&["kind=4", "row=1", "dossier=7", "f=-0"], 8, "-0 (0x8000000000000000), its sign bit is set", "a finite"),
        (&["kind=4", "row=1", "dossier=7", "a=-1.5"], 8, "-1.5 (0xbff8000000000000), its sign bit is set", "a finite"),
        (
            &["kind=4", "row=1", "dossier=7", "a=0x7ff0000000000000"],
            8,
            "infinity (0x7ff0000000000000), its exponent field is 2047",
            "a finite number from 0",
        ),
        (&["kind=2", "row=3", "dossier=7", "b=1"], 9, "1", "zero: kind 2 row 3 carries a, c and no other quantity"),
        (&["kind=7", "row=1", "dossier=7", "c=5.5"], 10, "5.5", "0 to 5 kg per litre for kind 7 (density)"),
        (&["kind=5", "T=1", "dossier=7", "c=0.75", "d=0.5"], 11, "1.25", "at most 1"),
        (&["kind=8", "user=3"], 3, "0 (not given)", "1 to 18 for kind 8 (LDPE to Epoxy resins)\n"),
        (&["kind=8", "row=1", "user=2", "route=2"], 4, "2", "1 (to the STP) only for kind 8 row 1\n"),
        (
            &["kind=8", "row=1"],
            5,
            "0 (not given)",
            "1 (open process), 2 (partially open process) or 3 (closed process) for kind 8\n",
        ),
        (
            &["kind=8", "row=1", "user=1"],
            31,
            "1 (open process)",
            "2 (partially open process) or 3 (closed process) for kind 8 row 1 (LDPE)\n",
        ),
        (
            &["kind=8", "row=16", "user=2", "T=1"],
            31,
            "2 (partially open process)",
            "3 (closed process) for kind 8 row 16 (Phenolic resins)\n",
        ),
        (&["kind=8", "row=6", "user=1"], 6, "0 (not given)", "1 to 366 for kind 8 row 6 (emission days per year)\n"),
        (&["kind=8", "row=6", "user=1", "T=1", "dossier=7", "d=1"], 9, "1", "zero: kind 8 row 6 carries a, b, c and"),
        (&["kind=8", "row=6", "user=1", "T=1", "dossier=7", "b=0.75", "c=0.5"], 11, "1.25", "at most 1"),
    ];
    for (fields, number, found, allowed) in refusals {
        for command in ["work-out", "explain", "case"] {
            let ran = place.run(&with(command, fields));
            ran.ends(number);
            assert_eq!(ran.out, "");
            assert!(ran.err.starts_with(&format!("refused {number}: ")), "{}", ran.err);
            assert!(ran.err.contains(&format!("found    {found}\n")), "{}", ran.err);
            assert!(ran.err.contains(&format!("allowed  {allowed}")), "{}", ran.err);
        }
        let json = place.run(&[&["work-out", "--json"], fields].concat());
        assert!(json.ends(number).out.starts_with(&format!("{{\"refused\":{number},")), "{}", json.out);
    }
}

#[test]
fn a_case_file_is_written_and_read_back() {
    let place = Place::new("case_file");
    let ran = place.run(&[&["case", "--out", "p1.case"], &P1[..]].concat());
    let hex = "04010100000000000700000000000000\
               00000000000059400000000000000000000000000000f03f000000000000000000000000000000000000000000000000";
    assert!(ran.ends(0).out.ends_with(&format!("bytes    {hex}\nwritten  p1.case\n")), "{}", ran.out);
    assert_eq!(place.read("p1.case").len(), 64);
    assert_eq!(place.names(), ["p1.case"]);
    let by_file = place.run(&["work-out", "--case", "p1.case"]);
    assert_eq!(by_file.ends(0).out, place.run(&with("work-out", &P1)).out);
    // An existing file is never written over.
    let before = place.read("p1.case");
    place.run(&["case", "kind=4", "row=1", "dossier=8", "--out", "p1.case", "--blank-as-zero"]).ends(73);
    assert_eq!(place.read("p1.case"), before);
}

#[test]
fn json_answers() {
    let place = Place::new("json");
    let ran = place.run(&[&["work-out", "--json"], &P1[..]].concat());
    let figures = "\"figures\":{\"stp\":\"76923077\",\"surface\":\"0\",\"air\":\"0\",\"soil\":\"0\"}}\n";
    assert!(ran.ends(0).out.ends_with(figures), "{}", ran.out);
    let ran = place.run(&[&["explain", "--json"], &P1[..]].concat());
    assert!(ran.ends(0).out.contains("\"kilograms\":\"1/13\",\"micrograms\":\"1000000000/13\""), "{}", ran.out);
    let ran = place.run(&["defaults", "--json"]);
    let ldpe = "{\"row\":1,\"name\":\"LDPE\",\"usages\":[{\"user\":2,\"process\":\"partially open process\",\
                \"Q\":{\"value\":\"23100\",\"source\":\"004, 3.3, Table 3.1, l. 250\"}},{\"user\":3,";
    assert!(ran.ends(0).out.contains(ldpe), "{}", ran.out);
    assert!(ran.out.contains("],\"polymers_note\":\"Q is from the UK"), "{}", ran.out);
    let ran = place.run(&["work-out", "kind=x", "--json"]);
    assert!(ran.ends(64).out.starts_with("{\"error\":64,"), "{}", ran.out);
}

const COMMANDS: [&str; 13] = [
    "work-out", "explain", "case", "new", "file", "import", "show", "list", "worst", "export", "verify", "defaults",
    "help",
];

#[test]
fn defaults_and_help() {
    let place = Place::new("defaults");
    let defaults = place.run(&["defaults"]);
    for part in ["5.57", "list of advised defaults, l. 112", "0.71", "l. 2020", "version 6, 12 November 2015", "260"] {
        assert!(defaults.ends(0).out.contains(part), "{part}");
    }
    for polymer in [
        "\nPolymer rows, kind 8: usage on site Q in t per year by user, 1 (open process), 2 (partially open process) or ",
        "\n  1  LDPE                   1: -      2: 23100  3: 528    [004, 3.3, Table 3.1, l. 250]\n",
        "\n  6  Polystyrene            1: 605    2: 389    3: 623    [004, 3.3, Table 3.1, l. 255]\n",
        "\n  18 Epoxy resins           1: -      2: -      3: 80     [004, 3.3, Table 3.1, l. 267]\n",
    ] {
        assert!(defaults.out.contains(polymer), "{polymer}{}", defaults.out);
    }
    for part in ["004, l. 244", "(l. 432–433)", "(l. 449)", "in 4.3.4 (l. 523–587)", "(l. 555, 587)"] {
        assert_eq!(defaults.out.matches(part).count(), 1, "{part}\n{}", defaults.out);
    }
    for words in [&["help"][..], &["--help"], &["-h"]] {
        let help = place.run(words);
        for command in COMMANDS {
            assert!(help.ends(0).out.contains(&format!("\n  csorvelin {command} ")), "{command}");
        }
    }
    // A command's own page, with an example that runs.
    for command in COMMANDS {
        let page = place.run(&["help", command]);
        assert!(page.ends(0).out.starts_with(&format!("csorvelin {command}")), "{}", page.out);
        assert!(page.out.contains(&format!("\nExample:\n  csorvelin {command}")), "{}", page.out);
        assert_eq!(place.run(&[command, "--help"]).ends(0).out, page.out);
        assert_eq!(place.run(&[command, "z", "-h"]).ends(0).out, page.out);
    }
    let kinds = place.run(&["help", "kinds"]);
    let parts = [
        "kind 7: chemical toilets",
        "uses M per day, 0 to 100, row 0 only",
        "spraying loses 0.1 + 0.2 (000, Table 17, l. 1074–1075) and is not covered",
        "The city is paved downtown only (001, l. 66–69)",
        "A share below 1 needs tonnage data (001, l. 107–108)",
        "\n  user  1 (professional) or 2 (not professional)\n",
        "\n  (c + d) + e  at most 1, each addition rounded in binary64\n",
        "\n  rows 0 to 5; route 1 (STP)\n",
        "\n  T  emission days per year, 1 to 366, row 0 only\n",
    ];
    for part in parts {
        assert!(kinds.ends(0).out.contains(part), "{part}\n{}", kinds.out);
    }
    let (_, plastics) = kinds.out.split_once("\nkind 8: plastics makers, by site\n").unwrap();
    let fields = "\
  rows 1 to 18; route 1 (STP)
  user  1 (open process), 2 (partially open process) or 3 (closed process)
  T  emission days per year, 1 to 366
  a  active fraction of the plastic, 0 to 1
  b  fraction to air, 0 to 1
  c  fraction to water, 0 to 1
  b + c  at most 1, each addition rounded in binary64
";
    assert!(plastics.contains(fields) && !plastics.contains("row 0 only"), "{plastics}");
    for part in ["where it has none, 31 refuses the case", "csorvelin defaults prints the usages"] {
        assert!(plastics.contains(part), "{part}\n{plastics}");
    }
    for words in [&["help", "--json"][..], &["help", "kinds", "--json"], &["new", "--help", "--json"]] {
        let ran = place.run(words);
        assert!(ran.ends(0).out.starts_with("{\"help\":\"") && ran.out.ends_with("\"}\n"), "{}", ran.out);
        assert_eq!(ran.out.lines().count(), 1);
    }
}

#[test]
fn usage_errors_end_with_64() {
    let place = Place::new("usage");
    let wrong: [&[&str]; 31] = [
        &[],
        &["emit"],
        &["work-out"],
        &["work-out", "kind"],
        &["work-out", "kind=4", "kind=4"],
        &["work-out", "colour=4"],
        &["work-out", "kind=256"],
        &["work-out", "T=4294967296"],
        &["work-out", "kind=4", "a=much"],
        &["work-out", "kind=4", "a=1e-400"],
        &["work-out", "kind=4", "a=1e400"],
        &["work-out", "kind=4", "--case", "file"],
        &["work-out", "--case"],
        &["work-out", "--verbose", "kind=4"],
        &["work-out", "kind=4", "--out", "file"],
        &["new"],
        &["new", "one", "two"],
        &["file", "archive"],
        &["show", "archive"],
        &["show", "archive", "-1"],
        &["worst", "archive", "river"],
        &["export", "archive"],
        &["export", "archive", "first"],
        &["export", "archive", "18446744073709551616"],
        &["export", "archive", "0", "1"],
        &["list", "archive", "kind=4"],
        &["help", "foo"],
        &["help", "kinds", "list"],
        &["help", "kind=4"],
        &["new", "-"],
        &["file", "-", "kind=4", "row=1", "dossier=7", "a=1", "c=1"],
    ];
    for words in wrong {
        let ran = place.run(words);
        ran.ends(64);
        assert!(ran.out.is_empty() && ran.err.contains("csorvelin help"), "{words:?}");
    }
    assert_eq!(place.names(), Vec::<String>::new());
    let ran = place.run(&["file", "-", "kind=4"]);
    assert!(ran.err.starts_with("csorvelin: file needs an archive file, not standard input\n"), "{}", ran.err);
    place.run(&["work-out", "--case", "missing"]).ends(66);
    place.run(&["list", "missing"]).ends(66);
    place.run(&[&["file", "missing"], &P1[..]].concat()).ends(66);
    place.run(&["new", "missing/archive"]).ends(73);
}

/// A result or a refusal that its reader did not get is no success, and not that refusal either.
#[test]
#[cfg(target_os = "linux")]
fn standard_output_that_takes_nothing_ends_with_74() {
    let place = Place::new("unwritable");
    for words in [with("work-out", &P1), with("work-out", &["kind=9", "--json"]), vec!["help"]] {
        let full = std::fs::OpenOptions::new().write(true).open("/dev/full").unwrap();
        let ran = common::Ran::of(place.command(&words).stdout(full).output().unwrap());
        assert!(ran.ends(74).err.contains("csorvelin: standard output: "), "{words:?}: {}", ran.err);
    }
}
