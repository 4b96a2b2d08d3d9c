//! JSON text. Numbers that may pass 2^53 are written as strings.

use std::fmt;

pub enum Json {
    Truth(bool),
    Number(u32),
    Text(String),
    List(Vec<Json>),
    Object(Vec<(String, Json)>),
}

impl Json {
    pub fn object<const N: usize>(entries: [(&str, Json); N]) -> Json {
        Json::Object(entries.into_iter().map(|(key, value)| (key.to_string(), value)).collect())
    }

    /// The object with one more entry, where there is a value for it.
    pub fn and(self, key: &str, value: Option<Json>) -> Json {
        match self {
            Json::Object(mut entries) => {
                entries.extend(value.map(|value| (key.to_string(), value)));
                Json::Object(entries)
            }
            other => other,
        }
    }

    /// The object with the entries of another behind its own.
    pub fn joined(self, other: Json) -> Json {
        match (self, other) {
            (Json::Object(mut entries), Json::Object(further)) => {
                entries.extend(further);
                Json::Object(entries)
            }
            (object, _) => object,
        }
    }

    pub fn list(items: impl IntoIterator<Item = Json>) -> Json {
        Json::List(items.into_iter().collect())
    }
}

impl From<bool> for Json {
    fn from(value: bool) -> Json {
        Json::Truth(value)
    }
}

impl From<u32> for Json {
    fn from(value: u32) -> Json {
        Json::Number(value)
    }
}

impl From<u8> for Json {
    fn from(value: u8) -> Json {
        Json::Number(u32::from(value))
    }
}

impl From<u64> for Json {
    fn from(value: u64) -> Json {
        Json::Text(value.to_string())
    }
}

impl From<&str> for Json {
    fn from(text: &str) -> Json {
        Json::Text(text.to_string())
    }
}

impl From<String> for Json {
    fn from(text: String) -> Json {
        Json::Text(text)
    }
}

impl fmt::Display for Json {
    fn fmt(&self, f: &mut fmt::Formatter) -> fmt::Result {
        match self {
            Json::Truth(value) => write!(f, "{value}"),
            Json::Number(value) => write!(f, "{value}"),
            Json::Text(text) => quoted(f, text),
            Json::List(items) => {
                f.write_str("[")?;
                for (index, item) in items.iter().enumerate() {
                    separator(f, index)?;
                    write!(f, "{item}")?;
                }
                f.write_str("]")
            }
            Json::Object(entries) => {
                f.write_str("{")?;
                for (index, (key, value)) in entries.iter().enumerate() {
                    separator(f, index)?;
                    quoted(f, key)?;
                    write!(f, ":{value}")?;
                }
                f.write_str("}")
            }
        }
    }
}

fn separator(f: &mut fmt::Formatter, index: usize) -> fmt::Result {
    f.write_str(if index == 0 { "" } else { "," })
}

fn quoted(f: &mut fmt::Formatter, text: &str) -> fmt::Result {
    f.write_str("\"")?;
    let mut rest = text;
    while let Some(place) = rest.find(|character: char| matches!(character, '"' | '\\' | '\0'..='\x1f')) {
        let (plain, special) = rest.split_at(place);
        f.write_str(plain)?;
        match special.as_bytes()[0] {
            special @ (b'"' | b'\\') => write!(f, "\\{}", char::from(special))?,
            control => write!(f, "\\u{control:04x}")?,
        }
        rest = &special[1..];
    }
    f.write_str(rest)?;
    f.write_str("\"")
}

#[cfg(test)]
mod tests {
    use super::*;

    #[test]
    fn text_is_escaped() {
        let value = Json::object([("a\"b", Json::list([Json::from(1u32), Json::from("\\\n"), Json::from(u64::MAX)]))]);
        assert_eq!(value.to_string(), "{\"a\\\"b\":[1,\"\\\\\\u000a\",\"18446744073709551615\"]}");
    }
}
