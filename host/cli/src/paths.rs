//! File names and what else others wrote, as text: they may be any bytes, what is printed is text on one line.

use std::ffi::OsStr;
use std::path::Path;

/// A name, or a text that quotes one, for a message: bytes that are no text, and characters that would move the cursor, are
/// shown in their place.
pub fn shown(path: impl AsRef<OsStr>) -> String {
    let mut text = String::new();
    for character in path.as_ref().to_string_lossy().chars() {
        if character.is_control() {
            text.extend(character.escape_default());
        } else {
            text.push(character);
        }
    }
    text
}

/// The directory that a file's name lies in.
pub fn directory_of(file: &Path) -> &Path {
    match file.parent() {
        Some(parent) if !parent.as_os_str().is_empty() => parent,
        _ => Path::new("."),
    }
}

#[cfg(test)]
mod tests {
    use super::*;
    use std::os::unix::ffi::OsStrExt;

    #[test]
    fn names_are_shown_on_one_line() {
        assert_eq!(shown("a b=c/ä"), "a b=c/ä");
        assert_eq!(shown("a\nb\x1b[2J"), "a\\nb\\u{1b}[2J");
        assert_eq!(shown(OsStr::from_bytes(b"x\xffy")), "x\u{fffd}y");
    }

    #[test]
    fn a_bare_name_lies_in_the_current_directory() {
        assert_eq!(directory_of(Path::new("archive")), Path::new("."));
        assert_eq!(directory_of(Path::new("/archive")), Path::new("/"));
        assert_eq!(directory_of(Path::new("one/two")), Path::new("one"));
    }
}
