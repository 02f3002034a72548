//! What a subcommand has to say when it is done, for people and for programs.

use crate::failure::Failure;
use crate::json::Json;
use crate::picture::{Picture, Style};
use std::io::{self, IsTerminal};
use std::path::Path;

/// A part of what people are told.
pub enum Part {
    Line(String),
    Picture(Picture),
    /// A field's bytes, which a terminal is shown as symbols in hex.
    Field(Vec<u8>),
}

/// What is told, in both forms, and what stands against the job although it was done.
pub struct Report {
    parts: Vec<Part>,
    json: Vec<(&'static str, Json)>,
    pub against: Option<Failure>,
}

impl Report {
    pub fn new(parts: Vec<Part>, json: Vec<(&'static str, Json)>) -> Report {
        Report { parts, json, against: None }
    }

    /// The same, with what stands against it, if anything does.
    pub fn against(self, against: Option<Failure>) -> Report {
        Report { against, ..self }
    }

    /// The report for programs.
    pub fn json(&self) -> Json {
        let against = self.against.iter().flat_map(Failure::json);
        Json::Object(self.json.iter().cloned().chain(against).collect())
    }

    /// The report for people, as it suits where it goes.
    pub fn text(&self) -> Vec<u8> {
        let terminal = io::stdout().is_terminal();
        let part = |part: &Part| match part {
            Part::Line(line) => format!("{line}\n").into_bytes(),
            Part::Picture(picture) => picture.draw(style(terminal)).into_bytes(),
            Part::Field(bytes) if terminal => in_symbols(bytes).into_bytes(),
            Part::Field(bytes) => bytes.clone(),
        };
        self.parts.iter().flat_map(part).collect()
    }
}

fn style(terminal: bool) -> Style {
    let variable = |name| std::env::var_os(name).unwrap_or_default();
    if !terminal || variable("TERM") == "dumb" {
        Style::Plain
    } else if variable("NO_COLOR").is_empty() {
        Style::Colours
    } else {
        Style::Marks
    }
}

/// A file's name as it can stand in a line: what would move or colour a terminal is written out.
pub fn shown(path: &Path) -> String {
    let name = path.to_string_lossy();
    let letter = |letter: char| match letter {
        '\'' | '"' | '\\' => letter.to_string(),
        _ => letter.escape_debug().to_string(),
    };
    if name.is_empty() {
        "''".to_string()
    } else {
        name.chars().map(letter).collect()
    }
}

/// Symbols in hex, sixteen a line.
fn in_symbols(bytes: &[u8]) -> String {
    let row = |row: &[u8]| row.chunks(2).map(|symbol| format!("{:02x}{:02x}", symbol[1], symbol[0])).collect::<Vec<String>>().join(" ") + "\n";
    bytes.chunks(32).map(row).collect()
}

/// Bytes in hex.
pub fn in_hex(bytes: &[u8]) -> String {
    bytes.iter().map(|byte| format!("{byte:02x}")).collect()
}

/// A number with a comma before every three digits.
pub fn commas(number: usize) -> String {
    let digits = number.to_string();
    let groups: Vec<&str> = digits.as_bytes().rchunks(3).rev().map(|group| std::str::from_utf8(group).expect("digits")).collect();
    groups.join(",")
}

/// So many things, by their name.
pub fn counted(number: usize, thing: &str) -> String {
    format!("{} {thing}{}", commas(number), if number == 1 { "" } else { "s" })
}

/// A part of a whole in percent, with the comma before it; nothing where there is no whole.
pub fn share(part: usize, whole: usize) -> String {
    match whole {
        0 => String::new(),
        _ => format!(", {:.2} %", 100.0 * part as f64 / whole as f64),
    }
}

/// A line with page numbers, if there are any.
pub fn listed(what: &str, pages: &[usize]) -> Option<Part> {
    (!pages.is_empty()).then(|| Part::Line(format!("{what}: {}", named(pages))))
}

/// Some page numbers in a line: all of a few, the first of many.
pub fn named(pages: &[usize]) -> String {
    const SHOWN: usize = 12;
    let shown: Vec<String> = pages.iter().take(SHOWN).map(|&page| commas(page)).collect();
    let more = match pages.len().saturating_sub(SHOWN) {
        0 => String::new(),
        more => format!(" and {} more", commas(more)),
    };
    format!("{} {}{more}", if pages.len() == 1 { "page" } else { "pages" }, shown.join(", "))
}

#[cfg(test)]
mod tests {
    use super::*;

    #[test]
    fn numbers_for_people() {
        assert_eq!([0, 12, 123, 1_234, 16_777_216].map(commas), ["0", "12", "123", "1,234", "16,777,216"]);
        assert_eq!((counted(1, "page"), counted(0, "page")), ("1 page".to_string(), "0 pages".to_string()));
        assert_eq!((named(&[4_095]), named(&[1, 2])), ("page 4,095".to_string(), "pages 1, 2".to_string()));
        let many: Vec<usize> = (0..1_014).collect();
        assert_eq!(named(&many), "pages 0, 1, 2, 3, 4, 5, 6, 7, 8, 9, 10, 11 and 1,002 more");
    }

    #[test]
    fn names_in_a_line() {
        let name = |name: &str| shown(Path::new(name));
        assert_eq!(name("a b/Sätze's \"\\.t"), "a b/Sätze's \"\\.t");
        assert_eq!(name("a\nb\x1b[31m\u{202e}\u{9b}"), "a\\nb\\u{1b}[31m\\u{202e}\\u{9b}");
        assert_eq!(name(""), "''");
    }

    #[test]
    fn a_field_on_a_terminal() {
        let bytes: Vec<u8> = (0..34).collect();
        assert_eq!(in_symbols(&bytes[30..]), "1f1e 2120\n");
        assert_eq!(in_symbols(&bytes).lines().map(|line| line.split(' ').count()).collect::<Vec<usize>>(), [16, 1]);
    }
}
