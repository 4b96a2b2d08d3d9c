//! Help: pages whose examples run, the refusals, the manual page, the completion.

mod common;
use common::{csv, installed, p1, Place, Ran};
use csorvelin_binding::Refusal;
use csorvelin_model::case::Case;
use std::process::{Command, Stdio};

const COMMANDS: [&str; 13] = [
    "work-out", "explain", "case", "new", "file", "import", "show", "list", "worst", "export", "verify", "defaults",
    "help",
];

/// The words of a page's example, behind the command's name.
fn example(page: &str) -> Vec<&str> {
    let (_, example) = page.split_once("\nExample:\n  csorvelin ").expect("an example");
    assert_eq!(example.lines().count(), 1, "{example}");
    example.split_whitespace().collect()
}

#[test]
fn the_example_of_each_page_runs() {
    let place = Place::new("help_examples");
    place.write("cases.csv", csv(&[Case { dossier: 8, ..p1() }]).as_bytes());
    // An archive is made and filed into before it is read.
    let mut commands = COMMANDS.to_vec();
    commands.sort_by_key(|command| ["new", "file"].iter().position(|first| first == command).unwrap_or(2));
    for command in commands {
        let page = place.run(&["help", command]).ends(0).out.clone();
        let words = example(&page);
        assert_eq!(words[0], command);
        let ran = place.run(&words);
        assert!(!ran.ends(0).out.is_empty() && ran.err.is_empty(), "{words:?}: {}", ran.err);
    }
    assert_eq!(place.names(), ["archive", "cases.csv", "loads", "p1.case"]);
}

/// Each command's page has its own forms, and says what is peculiar to it.
#[test]
fn each_page_is_that_command_s_own() {
    let place = Place::new("help_pages");
    let says = [
        ("work-out", "counts as 0, and a note says so"),
        ("explain", "in lines of at most 100 columns"),
        ("case", "An existing file is never written over."),
        ("new", "An existing file is never written over."),
        ("file", "--blank-as-zero counts a blank as 0"),
        ("import", "Each case that is refused gets a line with its file and line"),
        ("show", "explain and verify check it"),
        ("list", "among equals the first filed is first"),
        ("worst", "Among equals it is the first filed."),
        ("export", "the smallest binary64 number of micrograms that is not below its figure"),
        ("verify", "The exit status is 0 where all agree, 65 where not, 21 where it is no archive"),
        ("defaults", "the document, table and line that it comes from"),
        ("help", "csorvelin help refusals"),
    ];
    let overview = place.run(&["help"]).ends(0).out.clone();
    for (command, part) in says {
        let page = place.run(&["help", command]).ends(0).out.clone();
        let joined = page.replace('\n', " ");
        assert!(joined.contains(part), "{page}");
        // Every form of the overview stands on the page, with what comes of it.
        for line in overview.lines().filter(|line| line.starts_with(&format!("  csorvelin {command} "))) {
            let (form, meaning) = line.trim().split_once("  ").unwrap();
            assert!(page.contains(&format!("{form}\n    {}\n", meaning.trim())), "{form}\n{page}");
        }
        for option in ["--json", "--help", "--version"] {
            assert!(page.contains(&format!("\n  {option} ")), "{page}");
        }
    }
}

#[test]
fn help_refusals_has_every_number() {
    let place = Place::new("help_refusals");
    let page = place.run(&["help", "refusals"]).ends(0).out.clone();
    for refusal in Refusal::ALL {
        let line = format!("\n  {:<4}{}\n", refusal.number(), refusal.words());
        assert_eq!(page.matches(&line).count(), 1, "{page}");
    }
    let orders = [
        "work-out, explain and case look for 1 to 5, 31, 6 to 11; file and import for the same, then 21, 22, 23;",
        "; show, export and explain of a record for 21, 24;",
    ];
    for order in orders {
        assert!(page.replace('\n', " ").contains(order), "{page}");
    }
    let numbers =
        page.lines().filter(|line| line.starts_with("  ")).map(|line| line.split_whitespace().next().unwrap());
    let numbers: Vec<u32> = numbers.map(|number| number.parse().unwrap()).collect();
    assert_eq!(numbers, [1, 2, 3, 4, 5, 31, 6, 7, 8, 9, 10, 11, 12, 21, 22, 23, 24]);
    // A refusal is told in the words of this page.
    let ran = place.run(&["work-out", "kind=9"]);
    assert!(page.contains(ran.ends(2).err.lines().next().unwrap().strip_prefix("refused 2: ").unwrap()), "{}", ran.err);
    // The other statuses stand in the overview.
    let overview = place.run(&["help"]).ends(0).out.clone();
    assert!(overview.contains("a refusal's number (1 to 12, 21 to 24, 31; csorvelin help refusals)"), "{overview}");
    for status in [64, 65, 66, 70, 71, 73, 74, 75, 77] {
        assert_eq!(overview.matches(&format!("\n  {status}  ")).count(), 1, "{overview}");
    }
}

/// The manual page as it is printed, without warnings.
#[test]
fn the_manual_page_is_laid_out_without_a_warning() {
    let place = Place::new("help_man");
    let page = place.run(&["help", "man"]).ends(0).out.clone();
    assert!(page.starts_with(".TH CSORVELIN 1 "), "{page}");
    // A bare dash would be printed as a hyphen, which no command takes.
    assert!(!page.replace("\\-", "").contains('-'), "{page}");
    place.write("csorvelin.1", page.as_bytes());
    let mut command = if installed("man") && installed("groff") {
        let mut command = Command::new("man");
        command.args(["--warnings=w", "-E", "UTF-8", "-l", "csorvelin.1"]);
        command
    } else if installed("groff") {
        let mut command = Command::new("groff");
        command.args(["-ww", "-K", "utf8", "-T", "utf8", "-P-cbou", "-rLL=1000n", "-man", "csorvelin.1"]);
        command
    } else {
        return;
    };
    command.current_dir(&place.directory).env("MANWIDTH", "1000").env("PAGER", "cat");
    let ran = Ran::of(command.env("LC_ALL", "C.UTF-8").stdin(Stdio::null()).output().unwrap());
    assert_eq!(ran.ends(0).err, "");
    // Without the blanks that fill a line.
    let text: String =
        ran.out.lines().map(|line| line.split_whitespace().collect::<Vec<_>>().join(" ") + "\n").collect();
    for heading in ["NAME", "SYNOPSIS", "DESCRIPTION", "COMMANDS", "EXIT STATUS"] {
        assert!(text.contains(&format!("\n{heading}\n")), "{heading}\n{text}");
    }
    for command in COMMANDS {
        let page = place.run(&["help", command]).out;
        let forms = page.lines().take_while(|line| !line.is_empty()).filter(|line| line.starts_with("csorvelin"));
        for form in forms {
            assert!(text.contains(&format!("\n{form}\n")), "{form}\n{text}");
        }
        let options = page.lines().filter(|line| line.starts_with("  --"));
        for option in options.map(|line| line.split_whitespace().next().unwrap()) {
            assert!(text.contains(option), "{command} {option}\n{text}");
        }
        assert!(text.contains(&example(&page).join(" ")), "{command}");
    }
    for refusal in Refusal::ALL {
        assert!(text.contains(&format!("{} refused: {}\n", refusal.number(), refusal.words())), "{text}");
    }
}

/// What bash offers for the last of some words.
fn offered(place: &Place, words: &[&str]) -> Vec<String> {
    let script = "source ./completion && compopt() { :; } && COMP_WORDS=(\"$@\") && COMP_CWORD=$(($# - 1)) \
                  && _csorvelin && printf '%s\\n' \"${COMPREPLY[@]}\"";
    let mut command = Command::new("bash");
    command.args(["--norc", "-c", script, "bash", "csorvelin"]).args(words).current_dir(&place.directory);
    let ran = Ran::of(command.stdin(Stdio::null()).output().unwrap());
    assert_eq!(ran.err, "", "{words:?}");
    ran.out.lines().filter(|line| !line.is_empty()).map(str::to_string).collect()
}

#[test]
fn completion_in_bash() {
    if !installed("bash") {
        return;
    }
    let place = Place::new("help_completion");
    place.write("completion", place.run(&["help", "completion"]).ends(0).out.as_bytes());
    let fields = ["kind=", "row=", "route=", "user=", "T=", "dossier=", "a=", "b=", "c=", "d=", "e=", "f="];
    let compartments = ["stp", "surface", "air", "soil"];
    let expected: [(&[&str], &[&str]); 24] = [
        (&["w"], &["work-out", "worst"]),
        (&["ver"], &["verify"]),
        (&["ex"], &["explain", "export"]),
        (&["export", "archive", "0", "--o"], &["--out"]),
        (&["--v"], &["--version"]),
        (&["zzz"], &[]),
        (&["help", "re"], &["refusals"]),
        (&["help", "im"], &["import"]),
        (&["work-out", ""], &fields),
        (&["work-out", "kind=4", "ro"], &["row=", "route="]),
        (&["file", "archive", "d"], &["dossier=", "d="]),
        (&["file", "archive", "--w"], &["--wait"]),
        (
            &["import", "archive", "--"],
            &["--blank-as-zero", "--wait", "--keep-going", "--dry-run", "--json", "--help", "--version"],
        ),
        (&["list", "archive", "--t"], &["--top"]),
        (&["list", "archive", "--top", "5", ""], &compartments),
        (&["list", "archive", "--top", "5", "s"], &["stp", "surface", "soil"]),
        (&["worst", "archive", "s"], &["stp", "surface", "soil"]),
        (&["verify", "--x"], &[]),
        // File names are left to bash.
        (&["file", "d"], &[]),
        (&["show", ""], &[]),
        (&["export", "archive", "0", "--out", "k"], &[]),
        (&["work-out", "--case", "k"], &[]),
        (&["list", "archive", "--top", ""], &[]),
        (&["worst", "s"], &[]),
    ];
    for (words, offers) in expected {
        assert_eq!(offered(&place, words), offers, "{words:?}");
    }
    let mut commands = offered(&place, &[""]);
    commands.retain(|word| !word.starts_with("--"));
    assert_eq!(commands, COMMANDS);
    // Each command's options are those of its page.
    for command in COMMANDS {
        let page = place.run(&["help", command]).out;
        let options = page.lines().filter(|line| line.starts_with("  --"));
        let options: Vec<&str> = options.map(|line| line.split_whitespace().next().unwrap()).collect();
        assert_eq!(offered(&place, &[command, "-"]), options);
    }
    let registered = "source ./completion && complete -p csorvelin";
    let output =
        Command::new("bash").args(["--norc", "-c", registered]).current_dir(&place.directory).output().unwrap();
    assert_eq!(Ran::of(output).ends(0).out, "complete -o default -F _csorvelin csorvelin\n");
}
