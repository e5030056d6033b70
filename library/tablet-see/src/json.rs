//! JSON, written.

use std::fmt;

pub enum Json {
    Number(u32),
    Text(String),
    True,
    False,
    List(Vec<Json>),
    Object(Vec<(&'static str, Json)>),
}

impl Json {
    pub fn text(text: impl Into<String>) -> Json {
        Json::Text(text.into())
    }

    pub fn truth(truth: bool) -> Json {
        if truth {
            return Json::True;
        }
        Json::False
    }

    pub fn numbers(numbers: impl IntoIterator<Item = u32>) -> Json {
        Json::List(numbers.into_iter().map(Json::Number).collect())
    }
}

/// Without spaces. `<` is written `\u003c`, so that the text can stand in a page.
impl fmt::Display for Json {
    fn fmt(&self, f: &mut fmt::Formatter) -> fmt::Result {
        match self {
            Json::Number(n) => write!(f, "{n}"),
            Json::Text(text) => quoted(f, text),
            Json::True => write!(f, "true"),
            Json::False => write!(f, "false"),
            Json::List(items) => {
                write!(f, "[")?;
                for (at, item) in items.iter().enumerate() {
                    let comma = if at == 0 { "" } else { "," };
                    write!(f, "{comma}{item}")?;
                }
                write!(f, "]")
            }
            Json::Object(fields) => {
                write!(f, "{{")?;
                for (at, (name, value)) in fields.iter().enumerate() {
                    let comma = if at == 0 { "" } else { "," };
                    write!(f, "{comma}\"{name}\":{value}")?;
                }
                write!(f, "}}")
            }
        }
    }
}

fn quoted(f: &mut fmt::Formatter, text: &str) -> fmt::Result {
    write!(f, "\"")?;
    for c in text.chars() {
        match c {
            '"' | '\\' => write!(f, "\\{c}")?,
            '\n' => write!(f, "\\n")?,
            '<' => write!(f, "\\u003c")?,
            c if c < ' ' || c == '\u{2028}' || c == '\u{2029}' => write!(f, "\\u{:04x}", c as u32)?,
            c => write!(f, "{c}")?,
        }
    }
    write!(f, "\"")
}
