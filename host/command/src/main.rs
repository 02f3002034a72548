//! The command `cotelark`: makes a backup of a table file, brings it up to date, and looks into it. What it says goes to standard output, why it does not do a
//! thing to standard error; it ends with status 0, with 1 where it was refused or something is damaged, and with 2 where it was used in a wrong way.

mod backup;
mod captions;
mod failure;
mod files;
mod json;
mod looking;
mod names;
mod picture;
mod repair;
mod report;
mod subcommands;
mod words;

use failure::Failure;
use json::Json;
use report::{shown, Report};
use std::ffi::OsString;
use std::io::{self, ErrorKind, Write};
use std::process::ExitCode;
use subcommands::{general_help, Subcommand, SUBCOMMANDS};
use words::Words;

fn main() -> ExitCode {
    let mut words = std::env::args_os().skip(1);
    let name = words.next().unwrap_or_default();
    if name == "--help" || name == "-h" {
        return show_help(&general_help());
    }
    match SUBCOMMANDS.iter().find(|subcommand| name == subcommand.name) {
        Some(subcommand) => run(subcommand, words.collect()),
        None => {
            let known = SUBCOMMANDS.map(|subcommand| subcommand.name).join(", ");
            complain(&format!("cotelark: {} is no subcommand, but {known} are; `cotelark --help` tells more.", shown(name.as_ref())));
            ExitCode::from(2)
        }
    }
}

fn run(subcommand: &Subcommand, words: Vec<OsString>) -> ExitCode {
    let json = words.iter().take_while(|word| *word != "--").any(|word| word == "--json");
    match Words::of(words, subcommand) {
        Ok(words) if words.help => show_help(&subcommand.help()),
        Ok(words) => match (subcommand.run)(&words) {
            Ok(report) => show(subcommand, &report, json),
            Err(failure) => fail(subcommand, &failure, json),
        },
        Err(misuse) => fail(subcommand, &misuse, json),
    }
}

fn show_help(help: &str) -> ExitCode {
    match print(help.as_bytes()) {
        Ok(()) => ExitCode::SUCCESS,
        Err(error) => {
            complain(&format!("cotelark: standard output cannot be written: {error}."));
            ExitCode::FAILURE
        }
    }
}

/// Prints what was done. What stands against it, such as a damaged page, or output that cannot be written, makes the status 1 all the same.
fn show(subcommand: &Subcommand, report: &Report, json: bool) -> ExitCode {
    let text = if json { line_of(report.json()) } else { report.text() };
    let printed = print(&text);
    if let Err(error) = &printed {
        complain(&format!("cotelark {}: done, but standard output cannot be written: {error}.", subcommand.name));
    }
    if let Some(failure) = &report.against {
        complain(&format!("cotelark {}: {failure}", subcommand.name));
    }
    ExitCode::from(u8::from(printed.is_err() || report.against.is_some()))
}

/// Says why it was not done. Where even that cannot be written, the status tells.
fn fail(subcommand: &Subcommand, failure: &Failure, json: bool) -> ExitCode {
    complain(&format!("cotelark {}: {failure}", subcommand.name));
    if json {
        let _ = print(&line_of(Json::Object(failure.json())));
    }
    ExitCode::from(failure.status())
}

fn line_of(json: Json) -> Vec<u8> {
    format!("{json}\n").into_bytes()
}

/// Prints a line to standard error, if it can be written.
fn complain(line: &str) {
    let _ = writeln!(io::stderr(), "{line}");
}

/// Prints to standard output; a reader that has gone away is no fault.
fn print(text: &[u8]) -> io::Result<()> {
    let mut output = io::stdout().lock();
    let printed = output.write_all(text).and_then(|()| output.flush());
    printed.or_else(|error| if error.kind() == ErrorKind::BrokenPipe { Ok(()) } else { Err(error) })
}
