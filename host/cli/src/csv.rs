//! Records and cases as CSV: a header line, then a line for each; comma or semicolon, as the header has it.

use crate::arguments::{Given, FIELDS};
use crate::describe::{counted, FIGURE_NAMES};
use crate::numbers::{self, shortened};
use csorvelin_binding::{Case, Figures, Record};
use csorvelin_model::archive::MOST_RECORDS;
use csorvelin_model::binary64;
use csorvelin_model::case::QUANTITIES;
use csorvelin_model::ranges;
use std::io::{self, BufRead, Read};

/// No line that is written here is nearly as long.
const MOST_LINE: u64 = 1 << 16;

/// Nor are as many lines ever wanted, blank ones among them.
const MOST_LINES: u64 = 2 * MOST_RECORDS;

/// The columns that a line may have. What a case is made of are its fields; the others, where they are filled, must agree.
fn columns() -> Vec<String> {
    let exact = QUANTITIES.iter().map(|name| format!("{name}_exact"));
    let names = ["record"].iter().chain(&FIELDS).chain(&FIGURE_NAMES).map(|name| name.to_string());
    names.chain(exact).collect()
}

pub fn header() -> String {
    columns().join(",") + "\n"
}

/// A record's line: fields, figures in micrograms, exact values. A quantity that the kind does not carry is blank.
pub fn row(number: u64, record: &Record) -> String {
    let (case, figures) = (record.case(), <[u64; 4]>::from(record.figures()));
    let listed = ranges::listed(case.kind, case.row);
    let carried = |index: usize| case.patterns[index] != 0 || listed.iter().any(|listed| listed.index == index);
    let of_quantity = |index: usize, text: fn(u64) -> String| {
        if carried(index) {
            text(case.patterns[index])
        } else {
            String::new()
        }
    };
    let whole =
        [u64::from(case.kind), case.row.into(), case.route.into(), case.user.into(), case.count.into(), case.dossier];
    let mut cells = vec![number.to_string()];
    cells.extend(whole.map(|value| value.to_string()));
    cells.extend((0..6).map(|index| of_quantity(index, decimal_or_pattern)));
    cells.extend(figures.map(|figure| figure.to_string()));
    cells.extend((0..6).map(|index| of_quantity(index, numbers::exact_pattern)));
    cells.join(",") + "\n"
}

/// What `import` reads back to the same pattern, be it a quantity or not.
fn decimal_or_pattern(pattern: u64) -> String {
    if binary64::is_quantity(pattern) {
        numbers::shortest(pattern)
    } else {
        format!("{pattern:#018x}")
    }
}

/// A case from a line, and what the line says of it besides.
pub struct Row {
    pub given: Given,
    figures: [Option<String>; 4],
    exact: [Option<String>; 6],
}

impl From<Given> for Row {
    /// A case of which nothing else is said.
    fn from(given: Given) -> Row {
        Row { given, figures: Default::default(), exact: Default::default() }
    }
}

impl Row {
    /// In what the line differs from its case and the figures of that.
    pub fn fault(&self, case: &Case, figures: Figures) -> Option<String> {
        let figures = FIGURE_NAMES.iter().zip(&self.figures).zip(<[u64; 4]>::from(figures));
        let mut figures = figures.filter_map(|((name, text), figure)| Some((name, text.as_ref()?, figure)));
        let figure = figures.find(|(_, text, figure)| numbers::whole(text, u64::MAX) != Ok(*figure));
        if let Some((name, text, figure)) = figure {
            return Some(format!("{name} is {} µg in the line, its case gives {figure} µg", shortened(text)));
        }
        let exact = QUANTITIES.iter().zip(&self.exact).zip(case.patterns);
        let mut exact = exact.filter_map(|((name, text), pattern)| Some((name, text.as_ref()?, pattern)));
        let (name, text, pattern) = exact.find(|(_, text, pattern)| numbers::exact_pattern(*pattern) != **text)?;
        let taken = numbers::exact_pattern(pattern);
        Some(format!("{name}_exact is {} in the line, but {name} is taken as {taken}", shortened(text)))
    }
}

/// The lines of a CSV text behind its header: their numbers, and the row or what is wrong with the line.
pub struct Rows<R> {
    lines: Lines<R>,
    separator: char,
    header: Vec<String>,
}

impl<R: BufRead> Rows<R> {
    /// Reads the header; or its line, and what is wrong with it.
    pub fn new(from: R) -> Result<Rows<R>, (u64, String)> {
        let mut lines = Lines { from, number: 0 };
        let line = match lines.next() {
            None => return Err((1, "there is no header line".to_string())),
            Some(line) => line.map_err(|error| error.to_string()),
        };
        match line.and_then(|line| header_of(&text(line)?)) {
            Ok((separator, header)) => Ok(Rows { lines, separator, header }),
            Err(message) => Err((lines.number, message)),
        }
    }

    /// The row of a line; none of one that has separators alone.
    fn row(&self, line: Vec<u8>) -> Result<Option<Row>, Fault> {
        let cells = text(line).and_then(|line| cells(&line, self.separator)).map_err(Fault::Line)?;
        if cells.iter().all(String::is_empty) {
            return Ok(None);
        }
        // Before all that is wrong with one line alone: it makes the other lines doubtful.
        decimal_points(&cells)?;
        if cells.len() != self.header.len() {
            let (cells, columns) = (counted(cells.len() as u64, "cell"), self.header.len());
            return Err(Fault::Line(format!("the line has {cells}, the header {columns}")));
        }
        let filled = |name: &str| {
            let place = self.header.iter().position(|column| column == name)?;
            Some(cells[place].clone()).filter(|cell| !cell.is_empty())
        };
        if self.header.iter().zip(&cells).any(|(name, cell)| name.is_empty() && !cell.is_empty()) {
            return Err(Fault::Line("a cell stands under a column without a name".to_string()));
        }
        let fields = FIELDS.iter().filter_map(|name| Some((name.to_string(), filled(name)?)));
        Ok(Some(Row {
            given: Given::of_fields(&fields.collect::<Vec<_>>()).map_err(Fault::Line)?,
            figures: FIGURE_NAMES.map(filled),
            exact: QUANTITIES.map(|name| filled(&format!("{name}_exact"))),
        }))
    }
}

/// Where one number has a decimal comma, points in the others may be thousands separators: 1.250 would be taken for 1.25.
fn decimal_points(cells: &[String]) -> Result<(), Fault> {
    let number_with_comma =
        |cell: &&String| cell.contains(',') && cell.bytes().all(|byte| b"0123456789.,+-eE".contains(&byte));
    match cells.iter().find(number_with_comma) {
        Some(cell) => {
            let cell = shortened(cell);
            Err(Fault::File(format!("{cell} has a decimal comma: write points, and no thousands separators")))
        }
        None => Ok(()),
    }
}

/// What is wrong: with one line, or with the file from there on and so with all of it.
pub enum Fault {
    Line(String),
    File(String),
}

impl<R: BufRead> Iterator for Rows<R> {
    type Item = (u64, Result<Row, Fault>);

    fn next(&mut self) -> Option<Self::Item> {
        loop {
            let line = self.lines.next()?.map_err(|error| Fault::File(error.to_string()));
            if let Some(row) = line.and_then(|line| self.row(line)).transpose() {
                return Some((self.lines.number, row));
            }
        }
    }
}

/// The separator and the columns of a header. A column may have no name, as those that a spreadsheet leaves behind the others.
fn header_of(line: &str) -> Result<(char, Vec<String>), String> {
    let line = line.strip_prefix('\u{feff}').unwrap_or(line);
    let separator = if line.contains(';') { ';' } else { ',' };
    let header = cells(line, separator)?.iter().map(|name| column(name)).collect::<Result<Vec<_>, _>>()?;
    let mut named = header.iter().enumerate().filter(|(_, name)| !name.is_empty());
    match named.find(|(index, name)| header[..*index].contains(name)) {
        Some((_, twice)) => Err(format!("column {twice} stands twice")),
        None => Ok((separator, header)),
    }
}

/// The name of a column, in any letter case.
fn column(name: &str) -> Result<String, String> {
    let column = columns().into_iter().chain([String::new()]).find(|column| column.eq_ignore_ascii_case(name));
    column.ok_or(format!("there is no column '{}': the columns are {}", shortened(name), columns().join(", ")))
}

/// Lines that are not blank, with their numbers, each of a bounded length.
struct Lines<R> {
    from: R,
    number: u64,
}

impl<R: BufRead> Iterator for Lines<R> {
    type Item = io::Result<Vec<u8>>;

    fn next(&mut self) -> Option<Self::Item> {
        loop {
            let mut line = vec![];
            self.number += 1;
            if self.number > MOST_LINES {
                return Some(Err(io::Error::other(format!("over {MOST_LINES} lines"))));
            }
            match self.from.by_ref().take(MOST_LINE).read_until(b'\n', &mut line) {
                Err(error) => return Some(Err(error)),
                Ok(0) => return None,
                Ok(length) if length as u64 == MOST_LINE && !line.ends_with(b"\n") => {
                    return Some(Err(io::Error::other(format!("a line of over {MOST_LINE} bytes is no CSV"))));
                }
                Ok(_) if line.trim_ascii().is_empty() => continue,
                Ok(_) => return Some(Ok(line)),
            }
        }
    }
}

/// A line as text, without its end.
fn text(line: Vec<u8>) -> Result<String, String> {
    let line = String::from_utf8(line).map_err(|_| "the line is not UTF-8")?;
    Ok(line.trim_end_matches(['\r', '\n']).to_string())
}

/// The cells of a line, without blanks around them. A cell in quotes may hold the separator, and two quotes for one.
fn cells(line: &str, separator: char) -> Result<Vec<String>, String> {
    let (mut cells, mut rest) = (vec![], line);
    loop {
        let (cell, behind) = match rest.trim_start().strip_prefix('"') {
            Some(quoted) => quoted_cell(quoted)?,
            None => {
                let (cell, _) = rest.split_at(rest.find(separator).unwrap_or(rest.len()));
                (cell.trim().to_string(), &rest[cell.len()..])
            }
        };
        cells.push(cell);
        let behind = behind.trim_start();
        match behind.strip_prefix(separator) {
            Some(further) => rest = further,
            None if behind.is_empty() => return Ok(cells),
            None => return Err("something stands behind a cell in quotes".to_string()),
        }
    }
}

/// A cell whose first quote is taken off, and what stands behind its last.
fn quoted_cell(text: &str) -> Result<(String, &str), String> {
    let (mut cell, mut rest) = (String::new(), text);
    loop {
        let (part, behind) = rest.split_once('"').ok_or("a quote is not closed in its line")?;
        cell += part;
        match behind.strip_prefix('"') {
            Some(further) => {
                cell.push('"');
                rest = further;
            }
            None => return Ok((cell, behind)),
        }
    }
}

#[cfg(test)]
mod tests {
    use super::*;

    fn rows(text: &str) -> Vec<(u64, Result<Vec<u8>, String>)> {
        let rows = Rows::new(text.as_bytes()).unwrap();
        let words = |fault| match fault {
            Fault::Line(words) => words,
            Fault::File(words) => format!("file: {words}"),
        };
        rows.map(|(line, row)| (line, row.map(|row| row.given.bytes).map_err(words))).collect()
    }

    #[test]
    fn cells_of_a_line() {
        assert_eq!(cells("a, b ,\"c,\"\"d\",", ',').unwrap(), ["a", "b", "c,\"d", ""]);
        assert_eq!(cells("1;2,5", ';').unwrap(), ["1", "2,5"]);
        assert_eq!(cells("", ',').unwrap(), [""]);
        assert_eq!(cells("\"\",\"\"\"\"", ',').unwrap(), ["", "\""]);
        for line in ["\"a", "\"1\"5", "\"a\" \"b\"", "\"\"\""] {
            assert!(cells(line, ',').is_err(), "{line}");
        }
    }

    #[test]
    fn the_same_cases_in_other_dress() {
        let plain = "kind,row,dossier,a,b,c\n4,1,7,100,0,1\n4,1,8,5,,1\n";
        let case = |dossier, a: f64| {
            let patterns = [a, 0., 1., 0., 0., 0.].map(f64::to_bits);
            Case { kind: 4, row: 1, route: 1, user: 0, count: 0, dossier, patterns }.to_bytes().to_vec()
        };
        let expected = vec![(2, Ok(case(7, 100.))), (3, Ok(case(8, 5.)))];
        assert_eq!(rows(plain), expected);
        assert_eq!(rows(&plain.replace(',', ";")), expected);
        assert_eq!(rows(&format!("\u{feff}{}", plain.replace('\n', "\r\n"))), expected);
        assert_eq!(rows("DOSSIER,Kind,c,\"a\",Row\n7,4,1,1e2,1\n\"8\", 4 ,1,5,1"), expected);
        // As a spreadsheet leaves it: columns without a name, lines of separators.
        assert_eq!(rows("kind;row;dossier;a;c;;\n4;1;7;100;1;;\n4;1;8;5;1;;\n;;;;;;\n"), expected);
    }

    #[test]
    fn what_is_wrong_is_said_of_its_line() {
        let lines = rows("kind,a\n\n4,x\n4\n4,1,2\n4,\"1\n");
        let numbers: Vec<u64> = lines.iter().map(|(line, _)| *line).collect();
        assert_eq!(numbers, [3, 4, 5, 6]);
        assert!(lines.iter().all(|(_, row)| row.as_ref().is_err_and(|words| !words.starts_with("file"))));
        assert!(rows("kind,\n4,5\n")[0].1.as_ref().is_err_and(|words| words.contains("without a name")));
        // A decimal comma makes every point doubtful.
        let lines = rows("kind;a\n4;1.250\n4;950,5\n");
        assert!(lines[0].1.is_ok() && lines[1].1.as_ref().is_err_and(|words| words.starts_with("file: 950,5 ")));
        // In a line that is wrong in another way too.
        assert!(rows("kind;a\n4;950,5;7\n")[0].1.as_ref().is_err_and(|words| words.starts_with("file: 950,5 ")));
        for text in ["", "kind,colour\n", "kind,KIND\n", "kind,\"a\n"] {
            assert!(Rows::new(text.as_bytes()).is_err(), "{text}");
        }
        // A message keeps no more of a cell than a line has room for.
        let long = "9".repeat(60_000);
        let row = Rows::new(format!("kind,stp\n4,{long}\n").as_bytes()).unwrap().next().unwrap().1.ok().unwrap();
        assert!(row.fault(&Case::from_bytes(&[0; 64]), Figures::default()).unwrap().len() < 200);
        assert!(Rows::new(format!("{long}\n").as_bytes()).err().unwrap().1.len() < 400);
        let endless = Rows::new(io::BufReader::new(io::repeat(b'1')));
        assert!(endless.err().unwrap().1.contains("no CSV"));
        let blank = Rows::new(io::BufReader::new(io::repeat(b'\n')));
        assert!(blank.err().unwrap().1.contains("lines"));
    }
}
