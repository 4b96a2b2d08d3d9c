//! Manners of the command line: version, file names of any bytes, options in any place and form, unknown ones.

mod common;
use common::json::Json;
use common::{archive_with, csv, p1, words, Place, P1};
use csorvelin_binding::VERSION;
use csorvelin_model::case::Case;
use std::ffi::{OsStr, OsString};
use std::fs;
use std::os::unix::ffi::OsStrExt;

const COMMANDS: [&str; 13] = [
    "work-out", "explain", "case", "new", "file", "import", "show", "list", "worst", "export", "verify", "defaults",
    "help",
];

#[test]
fn the_version_is_the_header_s() {
    let place = Place::new("version");
    let header = include_str!("../../../include/csorvelin.h");
    let defined: Vec<&str> = header.lines().filter(|line| line.contains("define CSORVELIN_VERSION")).collect();
    assert_eq!(defined, [format!("#define CSORVELIN_VERSION \"{VERSION}\"")]);
    assert!(VERSION.split('.').count() == 3 && VERSION.split('.').all(|part| part.parse::<u32>().is_ok()));
    let expected = format!("csorvelin {VERSION}\n");
    assert_eq!(place.run(&["--version"]).ends(0).out, expected);
    for command in COMMANDS {
        assert_eq!(place.run(&[command, "--version"]).ends(0).out, expected);
        assert_eq!(place.run(&["--version", command]).ends(0).out, expected);
    }
    let json = place.run(&["--version", "--json"]);
    assert_eq!(Json::read(&json.ends(0).out).text(&["version"]), VERSION);
    assert_eq!(place.names(), Vec::<String>::new());
}

/// Names that a shell, an option or a field would make something else of.
const NAMES: [&[u8]; 17] = [
    b"plain",
    b"two words",
    b" blank at both ends ",
    b"a=b",
    b"kind=4",
    b"A=B.archive",
    b"-",
    b"-x",
    b"-h",
    b"--",
    b"--json",
    b"--case=x",
    b"two\nlines",
    b"\x1b[2J\x07",
    b"*?[a]{b}~$HOME`\"'\\",
    "Größe µg".as_bytes(),
    b"\xff\xfe latin \xe9.csv.archive",
];

/// Words, a name being the last but some.
fn named(front: &[&str], name: &OsStr, behind: &[&str]) -> Vec<OsString> {
    let front = front.iter().map(OsString::from);
    front.chain([name.to_os_string()]).chain(behind.iter().map(OsString::from)).collect()
}

#[test]
fn a_file_name_may_be_any_bytes() {
    let place = Place::new("names");
    place.write("cases.csv", csv(&[Case { dossier: 8, ..p1() }]).as_bytes());
    for bytes in NAMES {
        // A dash alone is standard input, with its folder it is a file.
        let name = OsStr::from_bytes(if bytes == b"-" { b"./-" } else { bytes });
        let run = |front: &[&str], behind: &[&str]| {
            let ran = place.run(&named(front, name, behind));
            ran.ends(0);
            assert!(
                ran.err.is_empty() && !ran.out.chars().any(|c| c.is_control() && c != '\n'),
                "{name:?}\n{}",
                ran.err
            );
            ran.out
        };
        let path = place.directory.join(name);
        assert_eq!(run(&["new", "--"], &[]).lines().count(), 1);
        assert!(run(&[&["file"], &P1[..], &["--"]].concat(), &[]).starts_with("filed in "));
        assert!(run(&["import", "--"], &["cases.csv"]).starts_with("1 offered, 0 refused, 1 filed in "));
        assert_eq!(fs::read(&path).unwrap(), archive_with(&[p1(), Case { dossier: 8, ..p1() }]));
        assert_eq!(run(&["list", "--"], &[]).lines().count(), 3);
        assert_eq!(run(&["list", "--csv", "--"], &[]).lines().count(), 3);
        assert!(run(&["show", "--"], &["1"]).starts_with("record   1\n"));
        assert!(run(&["worst", "--"], &["stp"]).starts_with("record   0\n"));
        assert!(run(&["export", "--"], &["1"]).starts_with("record   1\n"));
        assert!(run(&["verify", "--"], &[]).ends_with("verified: all agree\n"));
        assert!(run(&["explain", "--"], &["1"]).contains("\nrecord   1\n"));
        Json::read(&run(&["verify", "--json", "--"], &[]));
        Json::read(&run(&["explain", "--json", "--"], &["0"]));
        fs::remove_file(&path).unwrap();
        // As the value of an option it needs no dashes before it.
        let written = run(&[&["case"], &P1[..], &["--out"]].concat(), &[]);
        assert!(written.lines().last().unwrap().starts_with("written  "), "{written}");
        assert_eq!(fs::read(&path).unwrap(), p1().encode());
        run(&["work-out", "--case"], &[]);
        let joined = |option: &str| OsStr::from_bytes(&[option.as_bytes(), name.as_bytes()].concat()).to_os_string();
        place.run(&[OsString::from("work-out"), joined("--case=")]).ends(0);
        fs::remove_file(&path).unwrap();
        place.run(&named(&[&["case"], &P1[..]].concat(), &joined("--out="), &[])).ends(0);
        assert_eq!(fs::read(&path).unwrap(), p1().encode());
        fs::remove_file(&path).unwrap();
    }
    assert_eq!(place.names(), ["cases.csv"]);
}

/// A name that cannot be shown as it is does not break the line that names it.
#[test]
fn a_name_is_shown_on_one_line() {
    let place = Place::new("shown_names");
    let shown: [(&[u8], &str); 4] = [
        (b"two\nlines", "two\\nlines"),
        (b"\x1b[2J", "\\u{1b}[2J"),
        (b"a=b \xff", "a=b \u{fffd}"),
        ("Größe".as_bytes(), "Größe"),
    ];
    for (name, shown) in shown {
        let name = OsStr::from_bytes(name);
        assert_eq!(place.run(&named(&["new", "--"], name, &[])).ends(0).out, format!("created {shown}, 16 bytes\n"));
        let again = place.run(&named(&["new", "--"], name, &[]));
        assert_eq!(again.ends(73).err, format!("csorvelin: {shown} exists already; nothing was written\n"));
        let json = place.run(&named(&["verify", "--json", "--"], name, &[]));
        assert_eq!(Json::read(&json.ends(0).out).text(&["archive"]), shown);
    }
    let ran = place.run(&["work-out", "kind=4", "a=\x1b[2J\n"]);
    assert!(ran.ends(64).err.starts_with("csorvelin: field a: '\\u{1b}[2J\\n' is neither"), "{}", ran.err);
    assert_eq!(ran.err.lines().count(), 2);
}

#[test]
fn a_name_that_was_taken_for_a_field_is_explained() {
    let place = Place::new("equals");
    let hint = "a file name with = goes behind -- or is written with its folder, as ./a=b\n";
    for name in ["a=b", "A=B", "kind=4.archive"] {
        place.archive(name);
        let case = ["kind=4", "row=1", "dossier=7", "b=0", "c=1", "a=1"];
        for words in [words(&["file", name], &case), words(&["explain", name, "0"], &[""; 0])] {
            let ran = place.run(&words);
            assert!(ran.ends(64).err.lines().next().unwrap().ends_with(hint.trim_end()), "{}", ran.err);
        }
        let folder = format!("./{name}");
        place.run(&words(&["file", &folder], &case)).ends(0);
        place.run(&["explain", &folder, "0"]).ends(0);
        // Where no case is given it is a name as it stands.
        place.run(&["show", name, "0"]).ends(0);
        place.run(&["list", name]).ends(0);
    }
    let ran = place.run(&["work-out", "colour=4"]);
    assert!(ran.ends(64).err.contains(hint), "{}", ran.err);
}

/// Some items in every order.
fn orders<T: Clone>(items: &[T]) -> Vec<Vec<T>> {
    if items.is_empty() {
        return vec![vec![]];
    }
    let with_first = |first: usize| {
        let (mut rest, item) = (items.to_vec(), items[first].clone());
        rest.remove(first);
        orders(&rest).into_iter().map(move |rest| [vec![item.clone()], rest].concat())
    };
    (0..items.len()).flat_map(with_first).collect()
}

#[test]
fn options_stand_in_any_place() {
    let place = Place::new("option_places");
    let cases: Vec<Case> = (1..=5).map(|dossier| Case { dossier, ..p1() }).collect();
    place.write("archive", &archive_with(&cases));
    let groups: [&[&str]; 5] = [&["list"], &["archive"], &["--kind", "4"], &["--top", "2", "stp"], &["--json"]];
    let expected = place.run(&groups.concat()).ends(0).out.clone();
    assert_eq!(Json::read(&expected).list(&["records"]).len(), 2);
    let mut tried = 0;
    for order in orders(&groups) {
        let words = order.concat();
        let at = |wanted: &str| words.iter().position(|word| *word == wanted);
        if at("list") < at("archive") {
            assert_eq!(place.run(&words).ends(0).out, expected, "{words:?}");
            tried += 1;
        }
    }
    assert_eq!(tried, 60);
    // A value may stand behind =, the first of two as well; a switch may be given twice.
    let same: [&[&str]; 3] = [
        &["list", "archive", "--kind=4", "--top=2", "stp", "--json"],
        &["--top=2", "stp", "list", "--kind=4", "--json", "--", "archive"],
        &["--json", "list", "--json", "archive", "--kind", "0x4", "--top", "2", "1", "--all", "--all"],
    ];
    for words in same {
        assert_eq!(place.run(words).ends(0).out, expected, "{words:?}");
    }
    place.run(&["--blank-as-zero", "kind=4", "file", "row=1", "archive", "dossier=9"]).ends(64);
    place.run(&["--blank-as-zero", "file", "kind=4", "row=1", "archive", "dossier=9", "--exact"]).ends(0);
}

/// The options there are, each with words that it takes.
const OPTIONS: [&[&str]; 15] = [
    &["--case", "case"],
    &["--out", "new"],
    &["--exact"],
    &["--blank-as-zero"],
    &["--wait", "1"],
    &["--all"],
    &["--csv"],
    &["--dossier", "1"],
    &["--kind", "1"],
    &["--top", "1", "stp"],
    &["--keep-going"],
    &["--dry-run"],
    &["--json"],
    &["--help"],
    &["--version"],
];

/// A command takes the options that its page names, and no other.
#[test]
fn options_are_those_of_the_command_s_page() {
    let place = Place::new("option_pages");
    let mut refused = 0;
    for command in COMMANDS {
        let page = place.run(&["help", command]).ends(0).out.clone();
        for option in OPTIONS {
            let named = page.lines().any(|line| line.split_whitespace().next() == Some(option[0]));
            let ran = place.run(&[&[command], option].concat());
            let said = ran.err.starts_with(&format!("csorvelin: {command} takes no {}\n", option[0]));
            assert_eq!(said, !named, "{command} {option:?}: {}", ran.err);
            if said {
                ran.ends(64);
                refused += 1;
            }
        }
    }
    assert!(refused > 80);
    let without: [&[&str]; 3] = [&["--exact"], &["--json", "--all"], &["--kind", "4"]];
    for words in without {
        place.run(words).ends(64);
    }
    assert_eq!(place.names(), Vec::<String>::new());
}

#[test]
fn wrong_options_are_refused_and_nothing_is_done() {
    let place = Place::new("option_errors");
    place.write("archive", &archive_with(&[p1()]));
    let before = place.read("archive");
    let wrong: [(&[&str], &str); 18] = [
        (&["list", "archive", "--verbose"], "unknown option --verbose; a file of that name goes behind --"),
        (&["list", "archive", "--JSON"], "unknown option --JSON;"),
        (&["list", "archive", "--jso"], "unknown option --jso;"),
        (&["list", "archive", "---json"], "unknown option ---json;"),
        (&["list", "--=x", "archive"], "unknown option --=x;"),
        (&["new", "-v"], "unknown option -v; a file of that name goes behind --"),
        (&["new", "-json"], "unknown option -json;"),
        (&["show", "archive", "-1"], "unknown option -1;"),
        (&["list", "archive", "--json=yes"], "--json takes no value"),
        (&["list", "archive", "--all="], "--all takes no value"),
        (&["list", "archive", "--kind"], "--kind needs KIND"),
        (&["list", "archive", "--top", "1"], "--top needs COUNT and COMPARTMENT"),
        (&["list", "archive", "--top=1"], "--top needs COUNT and COMPARTMENT"),
        (&["work-out", "--case"], "--case needs FILE"),
        (&["work-out", "--case=a", "--case", "b"], "--case is given twice"),
        (&["list", "archive", "--dossier=1", "--dossier=1"], "--dossier is given twice"),
        (&["case", "kind=4", "--out=a", "--out=b"], "--out is given twice"),
        (&["file", "archive", "kind=4", "--wait=1", "--wait=2"], "--wait is given twice"),
    ];
    for (words, said) in wrong {
        let ran = place.run(words);
        let lines: Vec<&str> = ran.ends(64).err.lines().collect();
        assert!(lines[0].starts_with(&format!("csorvelin: {said}")), "{words:?}: {}", ran.err);
        assert!(lines[1..] == ["Try: csorvelin help"] && ran.out.is_empty(), "{words:?}");
        let json = place.run(&[words, &["--json"]].concat());
        // What takes the last word for its value has no other.
        if !said.contains("needs") {
            let json = Json::read(&json.ends(64).out);
            assert!(json.number(&["error"]) == 64 && json.text(&["message"]).starts_with(said), "{json:?}");
        }
    }
    assert_eq!((place.read("archive"), place.names()), (before, vec!["archive".to_string()]));
}

#[test]
fn words_behind_two_dashes_are_places() {
    let place = Place::new("two_dashes");
    for words in [&["--", "new", "archive"][..], &["new", "--"], &["new", "--", "one", "two"], &["--"]] {
        place.run(words).ends(64);
    }
    assert_eq!(place.names(), Vec::<String>::new());
    // Before them the options go on; behind them nothing is one.
    assert!(place.run(&["new", "--json", "--", "--json"]).ends(0).out.starts_with("{\"created\":\"--json\""));
    assert_eq!(place.run(&["new", "--", "--help"]).ends(0).out, "created --help, 16 bytes\n");
    assert_eq!(place.run(&["list", "--", "--help"]).ends(0).out.lines().count(), 1);
    // A field behind them is a place too, and an error is not answered as JSON for a file of that name.
    let ran = place.run(&["file", "--", "--json", "kind=4"]);
    assert!(ran.ends(64).err.starts_with("csorvelin: file takes ARCHIVE CASE\n") && ran.out.is_empty(), "{}", ran.err);
    // Standard input is a dash, there too.
    place.run_on(&archive_with(&[p1()]), &["verify", "--", "-"]).ends(0);
    assert_eq!(place.names(), ["--help", "--json"]);
}

/// Whatever the command answers, with --json it is one line of JSON on standard output.
#[test]
fn every_answer_as_json_is_well_formed() {
    let place = Place::new("json_answers");
    place.write("cases.csv", csv(&[Case { dossier: 8, ..p1() }, p1()]).as_bytes());
    place.write("damaged", b"no archive");
    let answers: [(&[&str], i32); 27] = [
        (&["new", "archive"], 0),
        (&["file", "archive", "kind=4", "row=1", "dossier=7", "a=0.71", "b=0", "c=1"], 0),
        (&["import", "archive", "cases.csv", "--keep-going"], 65),
        (&["work-out", "kind=6", "row=1", "dossier=7", "a=5e-324", "b=1"], 0),
        (&["explain", "kind=2", "row=7", "dossier=7", "a=1", "c=1"], 0),
        (&["explain", "archive", "1"], 0),
        (&["case", "kind=5", "T=1", "dossier=7", "a=1", "b=1", "c=1", "d=0", "e=0", "--out", "case"], 0),
        (&["show", "archive", "0"], 0),
        (&["list", "archive"], 0),
        (&["worst", "archive", "soil"], 0),
        (&["export", "archive", "0", "--out", "loads"], 0),
        (&["verify", "archive"], 0),
        (&["defaults"], 0),
        (&["help"], 0),
        (&["help", "kinds"], 0),
        (&["help", "man"], 0),
        (&["help", "completion"], 0),
        (&["--version"], 0),
        (&["work-out", "kind=9"], 2),
        (&["list", "damaged"], 21),
        (&["show", "archive", "9"], 24),
        (&["export", "archive", "9"], 24),
        (&["export", "damaged", "0"], 21),
        (&["worst", "archive", "9"], 12),
        (&["new", "archive"], 73),
        (&["show", "missing \"\\\x07", "0"], 66),
        (&["work-out", "kind=4", "a=\"\\\x01\n\u{7f}ä"], 64),
    ];
    for (words, status) in answers {
        let ran = place.run(&[words, &["--json"]].concat());
        assert!(Json::read(&ran.ends(status).out).keys().len() > 0 && ran.out.lines().count() == 1, "{words:?}");
        assert_eq!(ran.err, "", "{words:?}");
    }
    let ran = place.run(&["work-out", "kind=4", "a=\"\\\x01\n\u{7f}ä", "--json"]);
    assert!(
        Json::read(&ran.out).text(&["message"]).starts_with("field a: '\"\\\x01\n\u{7f}ä' is neither"),
        "{}",
        ran.out
    );
}
