//! Lines of a bounded width, for a sheet that is printed and kept.

/// The columns of a sheet.
pub const WIDTH: usize = 100;

/// Where a line goes on.
const INDENT: usize = 9;

/// Ends a line that breaks inside a word, which only a long number is.
const BROKEN: char = '\\';

/// The text with every line broken into lines of at most [`WIDTH`] characters.
pub fn wrapped(text: &str) -> String {
    text.lines().flat_map(lines).map(|line| line + "\n").collect()
}

/// Whether a line of this text would be broken inside a word.
pub fn breaks_words(text: &str) -> bool {
    text.lines().flat_map(lines).any(|line| line.ends_with(BROKEN))
}

fn lines(line: &str) -> Vec<String> {
    let mut lines = vec![];
    let mut rest: Vec<char> = line.chars().collect();
    while rest.len() > WIDTH {
        // The last blank within the width, where it is not too far back.
        let blank = (WIDTH / 2..=WIDTH).rev().find(|&place| rest[place] == ' ');
        let (end, next, mark) = match blank {
            Some(place) => (place, place + 1, None),
            None => (WIDTH - 1, WIDTH - 1, Some(BROKEN)),
        };
        let head: String = rest[..end].iter().chain(&mark).collect();
        lines.push(head.trim_end().to_string());
        let tail = rest[next..].iter().skip_while(|&&character| mark.is_none() && character == ' ');
        rest = std::iter::repeat_n(' ', INDENT).chain(tail.copied()).collect();
    }
    let last: String = rest.into_iter().collect();
    if !last.trim().is_empty() || lines.is_empty() {
        lines.push(last);
    }
    lines
}

#[cfg(test)]
mod tests {
    use super::*;

    #[test]
    fn long_lines_go_on_indented() {
        let words = "word ".repeat(30);
        let text = format!("short\n\n  {words}\n");
        let wrapped = wrapped(&text);
        let lines: Vec<&str> = wrapped.lines().collect();
        assert_eq!(lines[..2], ["short", ""]);
        assert!(lines[2].starts_with("  word") && lines[3].starts_with("         word"));
        assert!(lines.iter().all(|line| line.chars().count() <= WIDTH));
        assert_eq!(wrapped.matches("word").count(), 30);
        assert!(!breaks_words(&text));
    }

    #[test]
    fn a_long_number_is_broken_and_whole() {
        let digits: String = (0..250).map(|n| char::from(b'0' + (n % 10) as u8)).collect();
        let text = format!("  = {digits}/7 kg per day");
        assert!(breaks_words(&text));
        let wrapped = wrapped(&text);
        assert!(wrapped.lines().all(|line| line.chars().count() <= WIDTH));
        let joined: String = wrapped.lines().map(|line| line.trim_end_matches(BROKEN)).collect();
        assert_eq!(joined.replace(' ', ""), format!("={digits}/7kgperday"));
        assert!(wrapped.starts_with("  = 0123"));
    }

    #[test]
    fn a_line_of_the_width_stays() {
        let line = "x".repeat(WIDTH);
        assert_eq!(wrapped(&line), line.clone() + "\n");
        assert!(!breaks_words(&line));
    }
}
