//! Why the command does not do what it was asked, each as one line.

use crate::json::Json;
use cotelark::Refusal;
use std::fmt;

/// Why something is not done.
#[derive(Debug)]
pub enum Failure {
    /// The command was used in a wrong way.
    Misuse(String),
    /// A file is missing, cannot be read or written, or is too long.
    File(String),
    /// The library refuses: of what, and what to do about it.
    Refused { refusal: Refusal, of: String, advice: String },
}

impl Failure {
    /// The exit status.
    pub fn status(&self) -> u8 {
        match self {
            Failure::Misuse(_) => 2,
            Failure::File(_) | Failure::Refused { .. } => 1,
        }
    }

    /// The same for a program that reads the output.
    pub fn json(&self) -> Vec<(&'static str, Json)> {
        let mut parts = vec![("error", Json::text(self))];
        if let Failure::Refused { refusal, .. } = self {
            parts.push(("refused", refused_json(refusal)));
        }
        parts
    }
}

fn refused_json(refusal: &Refusal) -> Json {
    Json::Object(vec![
        ("name", Json::text(refusal.name())),
        ("number", Json::Number(refusal.number() as usize)),
        ("value", Json::Number(refusal.value())),
    ])
}

impl fmt::Display for Failure {
    fn fmt(&self, out: &mut fmt::Formatter<'_>) -> fmt::Result {
        match self {
            Failure::Misuse(line) | Failure::File(line) => write!(out, "{line}"),
            Failure::Refused { refusal, of, advice } => write!(out, "{refusal}: {of}; {advice}."),
        }
    }
}
