//! Answers as JSON, one object a line.

use std::ffi::OsStr;
use std::fmt::{self, Write};
use std::os::unix::ffi::OsStrExt;

#[derive(Clone, Debug, PartialEq)]
pub enum Json {
    Null,
    Flag(bool),
    Number(usize),
    Real(f64),
    Text(String),
    List(Vec<Json>),
    Object(Object),
}

/// The fields of an object, in the order in which they were put.
#[derive(Clone, Debug, Default, PartialEq)]
pub struct Object(Vec<(&'static str, Json)>);

impl Object {
    pub fn new() -> Object {
        Object::default()
    }

    pub fn with(mut self, name: &'static str, value: impl Into<Json>) -> Object {
        self.0.push((name, value.into()));
        self
    }

    /// A file name: as text and, where it is no UTF-8, as its bytes too, so that two names whose text is the same can be told apart.
    pub fn with_file(self, name: &OsStr) -> Object {
        let named = self.with("file", name.to_string_lossy().into_owned());
        match name.to_str() {
            Some(_) => named,
            None => named.with("file_bytes", list(name.as_bytes())),
        }
    }

    pub fn and(mut self, more: Object) -> Object {
        self.0.extend(more.0);
        self
    }
}

/// A list of what these turn into.
pub fn list<T: Copy + Into<Json>>(values: &[T]) -> Json {
    Json::List(values.iter().map(|&value| value.into()).collect())
}

impl From<bool> for Json {
    fn from(flag: bool) -> Json {
        Json::Flag(flag)
    }
}

impl From<usize> for Json {
    fn from(number: usize) -> Json {
        Json::Number(number)
    }
}

impl From<u8> for Json {
    fn from(number: u8) -> Json {
        Json::Number(number.into())
    }
}

impl From<f64> for Json {
    fn from(number: f64) -> Json {
        Json::Real(number)
    }
}

impl From<&str> for Json {
    fn from(text: &str) -> Json {
        Json::Text(text.to_owned())
    }
}

impl From<String> for Json {
    fn from(text: String) -> Json {
        Json::Text(text)
    }
}

impl From<Object> for Json {
    fn from(object: Object) -> Json {
        Json::Object(object)
    }
}

impl From<Vec<Json>> for Json {
    fn from(values: Vec<Json>) -> Json {
        Json::List(values)
    }
}

impl<T: Into<Json>> From<Option<T>> for Json {
    fn from(value: Option<T>) -> Json {
        value.map_or(Json::Null, Into::into)
    }
}

/// A number that was measured or estimated, with two digits that count.
pub fn real(number: f64) -> String {
    let places = if number > 0.0 { (1.0 - number.log10().floor()).clamp(0.0, 12.0) as usize } else { 0 };
    format!("{number:.places$}")
}

fn quoted(f: &mut fmt::Formatter<'_>, text: &str) -> fmt::Result {
    f.write_char('"')?;
    for c in text.chars() {
        match c {
            '"' | '\\' => write!(f, "\\{c}")?,
            c if c.is_control() => write!(f, "\\u{:04x}", u32::from(c))?,
            c => f.write_char(c)?,
        }
    }
    f.write_char('"')
}

impl fmt::Display for Json {
    fn fmt(&self, f: &mut fmt::Formatter<'_>) -> fmt::Result {
        match self {
            Json::Null => f.write_str("null"),
            Json::Flag(flag) => write!(f, "{flag}"),
            Json::Number(number) => write!(f, "{number}"),
            Json::Real(number) => f.write_str(&real(*number)),
            Json::Text(text) => quoted(f, text),
            Json::List(values) => {
                f.write_char('[')?;
                for (i, value) in values.iter().enumerate() {
                    write!(f, "{}{value}", if i == 0 { "" } else { "," })?;
                }
                f.write_char(']')
            }
            Json::Object(object) => write!(f, "{object}"),
        }
    }
}

impl fmt::Display for Object {
    fn fmt(&self, f: &mut fmt::Formatter<'_>) -> fmt::Result {
        f.write_char('{')?;
        for (i, (name, value)) in self.0.iter().enumerate() {
            write!(f, "{}\"{name}\":{value}", if i == 0 { "" } else { "," })?;
        }
        f.write_char('}')
    }
}

#[cfg(test)]
mod tests {
    use super::*;

    #[test]
    fn two_digits_count() {
        for (number, due) in
            [(0.0, "0"), (0.000_004_56, "0.0000046"), (0.5, "0.50"), (1.26, "1.3"), (12.6, "13"), (1234.5, "1234")]
        {
            assert_eq!(real(number), due);
        }
    }

    #[test]
    fn objects() {
        let object = Object::new().with("a", "\"\n\\é").with("b", None::<usize>).with("c", list(&[1u8, 2])).with("d", true);
        let text = r#"{"a":"\"\u000a\\é","b":null,"c":[1,2],"d":true}"#;
        assert_eq!(object.to_string(), text);
    }
}
