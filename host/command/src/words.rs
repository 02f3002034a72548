//! The words of a command line after the subcommand: files, numbers and options.

use crate::failure::Failure;
use crate::report::shown;
use crate::subcommands::Subcommand;
use std::ffi::OsString;
use std::path::Path;

/// What was given, checked against what the subcommand takes.
pub struct Words {
    operands: Vec<OsString>,
    pub help: bool,
    pub page: Option<usize>,
    pub n: Option<usize>,
    /// The page number K among the operands.
    pub k: Option<usize>,
}

impl Words {
    pub fn of(given: Vec<OsString>, subcommand: &Subcommand) -> Result<Words, Failure> {
        let mut words = Words { operands: Vec::new(), help: false, page: None, n: None, k: None };
        let mut rest = given.into_iter();
        while let Some(word) = rest.next() {
            let text = word.to_string_lossy().into_owned();
            let (name, value) = match text.split_once('=') {
                Some((name, value)) => (name, Some(value.to_string())),
                None => (&text[..], None),
            };
            match (name, &value) {
                ("--", None) => words.operands.extend(rest.by_ref()),
                ("--json", None) => (),
                ("--help" | "-h", None) => words.help = true,
                ("--page", _) if subcommand.takes(name) => words.page = Some(number(name, value.or_else(|| next(&mut rest)), subcommand)?),
                ("--n", _) if subcommand.takes(name) => words.n = Some(number(name, value.or_else(|| next(&mut rest)), subcommand)?),
                _ if text.starts_with('-') => return Err(subcommand.misuse(format!("there is no option {}", shown(word.as_ref())))),
                _ => words.operands.push(word),
            }
        }
        if !words.help {
            words.count(subcommand)?;
            words.k = words.page_number(subcommand)?;
        }
        Ok(words)
    }

    /// As many operands as the subcommand takes.
    fn count(&self, subcommand: &Subcommand) -> Result<(), Failure> {
        let operands = subcommand.operands();
        match operands.get(self.operands.len()) {
            Some(missing) if !missing.starts_with('[') => Err(subcommand.misuse(format!("{missing} is missing"))),
            None if self.operands.len() > operands.len() => {
                let extra = shown(self.operands[operands.len()].as_ref());
                Err(subcommand.misuse(format!("{extra} is one word too many")))
            }
            _ => Ok(()),
        }
    }

    fn page_number(&self, subcommand: &Subcommand) -> Result<Option<usize>, Failure> {
        let mut named = subcommand.operands().into_iter().zip(&self.operands);
        let k = named.find(|(name, _)| name.trim_matches(['[', ']']) == "K");
        k.map(|(_, word)| number("K", Some(word.to_string_lossy().into_owned()), subcommand)).transpose()
    }

    /// The file at this place among the operands.
    pub fn file(&self, index: usize) -> &Path {
        Path::new(&self.operands[index])
    }
}

fn next(rest: &mut impl Iterator<Item = OsString>) -> Option<String> {
    rest.next().map(|word| word.to_string_lossy().into_owned())
}

/// A number of any size; one that is too large to count with is too large for everything here, and the library refuses it as any other.
fn number(name: &str, word: Option<String>, subcommand: &Subcommand) -> Result<usize, Failure> {
    let Some(word) = word else {
        return Err(subcommand.misuse(format!("{name} wants a number")));
    };
    if word.is_empty() || !word.bytes().all(|byte| byte.is_ascii_digit()) {
        return Err(subcommand.misuse(format!("{name} is a number, and {} is none", shown(word.as_ref()))));
    }
    Ok(word.parse().unwrap_or(usize::MAX))
}
