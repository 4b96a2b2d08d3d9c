//! JSON read strictly: what is not well-formed, or has a key twice, ends the test.

use std::iter::Peekable;
use std::str::Chars;

#[derive(Debug, PartialEq)]
pub enum Json {
    Truth(bool),
    Number(u64),
    Text(String),
    List(Vec<Json>),
    Object(Vec<(String, Json)>),
}

impl Json {
    /// The one value of a text that ends with a line feed.
    pub fn read(text: &str) -> Json {
        let mut rest = text.strip_suffix('\n').expect("a line feed at the end").chars().peekable();
        let value = value(&mut rest);
        assert_eq!(rest.next(), None, "something stands behind the value");
        value
    }

    pub fn keys(&self) -> Vec<&str> {
        let Json::Object(entries) = self else { panic!("no object: {self:?}") };
        entries.iter().map(|(key, _)| key.as_str()).collect()
    }

    pub fn has(&self, key: &str) -> bool {
        self.keys().contains(&key)
    }

    /// The value at the end of a path of keys.
    pub fn at(&self, path: &[&str]) -> &Json {
        path.iter().fold(self, |value, key| {
            let Json::Object(entries) = value else { panic!("no object: {value:?}") };
            &entries.iter().find(|(own, _)| own == key).unwrap_or_else(|| panic!("no {key} in {value:?}")).1
        })
    }

    pub fn text(&self, path: &[&str]) -> &str {
        match self.at(path) {
            Json::Text(text) => text,
            other => panic!("no text: {other:?}"),
        }
    }

    pub fn number(&self, path: &[&str]) -> u64 {
        match self.at(path) {
            Json::Number(number) => *number,
            other => panic!("no number: {other:?}"),
        }
    }

    pub fn truth(&self, path: &[&str]) -> bool {
        match self.at(path) {
            Json::Truth(truth) => *truth,
            other => panic!("no truth: {other:?}"),
        }
    }

    pub fn list(&self, path: &[&str]) -> &[Json] {
        match self.at(path) {
            Json::List(items) => items,
            other => panic!("no list: {other:?}"),
        }
    }
}

type Rest<'a> = Peekable<Chars<'a>>;

fn value(rest: &mut Rest) -> Json {
    match rest.peek().expect("a value") {
        '{' => Json::Object(entries(rest)),
        '[' => Json::List(several(rest, '[', ']', value)),
        '"' => Json::Text(quoted(rest)),
        't' => literal(rest, "true", true),
        'f' => literal(rest, "false", false),
        _ => number(rest),
    }
}

fn entries(rest: &mut Rest) -> Vec<(String, Json)> {
    let entries = several(rest, '{', '}', |rest| {
        let key = quoted(rest);
        take(rest, ':');
        (key, value(rest))
    });
    for (index, (key, _)) in entries.iter().enumerate() {
        assert!(entries[..index].iter().all(|(earlier, _)| earlier != key), "{key} stands twice");
    }
    entries
}

/// What stands between two brackets, with commas.
fn several<T>(rest: &mut Rest, open: char, close: char, item: impl Fn(&mut Rest) -> T) -> Vec<T> {
    take(rest, open);
    let mut items = vec![];
    if rest.next_if_eq(&close).is_some() {
        return items;
    }
    loop {
        items.push(item(rest));
        if rest.next_if_eq(&close).is_some() {
            return items;
        }
        take(rest, ',');
    }
}

fn quoted(rest: &mut Rest) -> String {
    take(rest, '"');
    let mut text = String::new();
    loop {
        match rest.next().expect("the end of a text") {
            '"' => return text,
            '\\' => text.push(escaped(rest)),
            control if control < ' ' => panic!("a bare {control:?} behind {text}"),
            other => text.push(other),
        }
    }
}

fn escaped(rest: &mut Rest) -> char {
    match rest.next().expect("what is escaped") {
        plain @ ('"' | '\\' | '/') => plain,
        'u' => {
            let code: String = rest.take(4).collect();
            char::from_u32(u32::from_str_radix(&code, 16).unwrap()).unwrap()
        }
        other => panic!("\\{other}"),
    }
}

fn literal(rest: &mut Rest, name: &str, value: bool) -> Json {
    name.chars().for_each(|character| take(rest, character));
    Json::Truth(value)
}

/// A whole number without a zero in front.
fn number(rest: &mut Rest) -> Json {
    let mut digits = String::new();
    while let Some(digit) = rest.next_if(char::is_ascii_digit) {
        digits.push(digit);
    }
    assert!(digits == "0" || !digits.is_empty() && !digits.starts_with('0'), "'{digits}', then {:?}", rest.peek());
    Json::Number(digits.parse().unwrap())
}

fn take(rest: &mut Rest, wanted: char) {
    assert_eq!(rest.next(), Some(wanted));
}
