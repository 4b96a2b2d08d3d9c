//! The examples of the repository's README are what the command prints.

mod common;
use common::Place;

/// The lines of a section's indented blocks, without the indentation.
fn indented(text: &str, heading: &str) -> Vec<String> {
    let section = text.split("\n## ").find(|section| section.starts_with(heading)).expect("the section");
    section.lines().filter_map(|line| line.strip_prefix("    ")).map(str::to_string).collect()
}

/// Runs what stands behind each `$`, in the order of the sections; a file that is shown is there.
#[test]
fn the_examples() {
    let readme = include_str!("../../../README.md");
    let lines = [indented(readme, "A first example"), indented(readme, "A working day")].concat();
    let place = Place::new("readme");
    let mut commands = 0;
    for example in lines.join("\n").split("$ ").skip(1) {
        let (words, printed) = example.split_once('\n').unwrap();
        match words.split(' ').collect::<Vec<_>>()[..] {
            ["cat", file] => place.write(file, format!("{}\n", printed.trim_end()).as_bytes()),
            ["csorvelin", ref words @ ..] => {
                let ran = place.run(words);
                // Blank lines are left out: in the text they have no indentation.
                let said = format!("{}{}", ran.err, ran.out).replace("\n\n", "\n");
                assert_eq!(said.trim_end(), printed.trim_end(), "csorvelin {words:?}");
                commands += 1;
            }
            _ => panic!("{words}"),
        }
    }
    assert_eq!(commands, 10);
}
