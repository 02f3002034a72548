//! The few forms of JSON that the command's answers take.

use std::fmt;

/// A value, printed without spaces.
#[derive(Clone, Debug)]
pub enum Json {
    Number(usize),
    Text(String),
    Bool(bool),
    List(Vec<Json>),
    Object(Vec<(&'static str, Json)>),
}

impl Json {
    pub fn text(text: impl fmt::Display) -> Json {
        Json::Text(text.to_string())
    }

    pub fn list<T>(values: impl IntoIterator<Item = T>, one: impl Fn(T) -> Json) -> Json {
        Json::List(values.into_iter().map(one).collect())
    }

    pub fn numbers<'a>(numbers: impl IntoIterator<Item = &'a usize>) -> Json {
        Json::list(numbers, |&number| Json::Number(number))
    }
}

impl fmt::Display for Json {
    fn fmt(&self, out: &mut fmt::Formatter<'_>) -> fmt::Result {
        match self {
            Json::Number(number) => write!(out, "{number}"),
            Json::Text(text) => quoted(out, text),
            Json::Bool(truth) => write!(out, "{truth}"),
            Json::List(values) => row(out, '[', values, |out, value| write!(out, "{value}"), ']'),
            Json::Object(parts) => row(out, '{', parts, |out, (name, value)| write!(out, "\"{name}\":{value}"), '}'),
        }
    }
}

/// Some values between brackets, with commas.
fn row<T>(
    out: &mut fmt::Formatter<'_>,
    open: char,
    values: &[T],
    one: impl Fn(&mut fmt::Formatter<'_>, &T) -> fmt::Result,
    close: char,
) -> fmt::Result {
    write!(out, "{open}")?;
    for (index, value) in values.iter().enumerate() {
        if index > 0 {
            write!(out, ",")?;
        }
        one(out, value)?;
    }
    write!(out, "{close}")
}

fn quoted(out: &mut fmt::Formatter<'_>, text: &str) -> fmt::Result {
    write!(out, "\"")?;
    for letter in text.chars() {
        match letter {
            '"' | '\\' => write!(out, "\\{letter}")?,
            control if control < ' ' => write!(out, "\\u{:04x}", control as u32)?,
            other => write!(out, "{other}")?,
        }
    }
    write!(out, "\"")
}

#[cfg(test)]
mod tests {
    use super::*;

    #[test]
    fn every_form() {
        let text = Json::text("\u{1}\n\u{1f} \"\\ä");
        let parts = vec![("text", text), ("list", Json::numbers(&[7, 8])), ("none", Json::List(vec![])), ("so", Json::Bool(true))];
        let json = "{\"text\":\"\\u0001\\u000a\\u001f \\\"\\\\ä\",\"list\":[7,8],\"none\":[],\"so\":true}";
        assert_eq!(Json::Object(parts).to_string(), json);
    }
}
