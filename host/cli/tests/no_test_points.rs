//! The command that users have cannot be stopped by a test: the points for that are in the package `stopping` only.

mod common;
use common::{ended, filing, program, Place};
use std::fs;
use std::process::Stdio;

const NAMES: [&str; 2] = ["CSORVELIN_TEST_STOP", "CSORVELIN_TEST_PAUSE"];

#[test]
fn the_command_does_not_know_the_names_that_tests_set() {
    let bytes = fs::read(program()).unwrap();
    let holds = |text: &str| bytes.windows(text.len()).any(|window| window == text.as_bytes());
    assert!(holds("csorvelin: "), "the bytes are those of the command");
    for text in [&NAMES[..], &["CSORVELIN_TEST", "stopped before", "paused before"]].concat() {
        assert!(!holds(text), "{text}");
    }
}

#[test]
fn the_command_runs_to_its_end_whatever_tests_set() {
    let place = Place::new("no_points");
    place.run(&["new", "archive"]).ends(0);
    for point in 1..=10 {
        let dossier = format!("dossier={point}");
        let mut command = place.command(&filing("archive", &dossier));
        // Where it waited, it would wait for the end of this input.
        command.stdin(Stdio::piped()).stdout(Stdio::piped()).stderr(Stdio::piped());
        let mut child = command.envs(NAMES.map(|name| (name, point.to_string()))).spawn().unwrap();
        let input = child.stdin.take();
        assert_eq!(ended(child).ends(0).err, "");
        drop(input);
    }
    assert_eq!(place.read("archive").len(), 16 + 10 * 96);
    assert_eq!(place.names(), ["archive"]);
}
