//! Caption fields: encoded and decoded from standard input to standard output, and searched in files.

use crate::failure::Failure;
use crate::files;
use crate::json::Json;
use crate::report::{commas, counted, in_hex, shown, Part, Report};
use crate::words::Words;
use cotelark::{Refusal, Symbols};
use std::io;

pub fn encode(_: &Words) -> Result<Report, Failure> {
    filter(cotelark::encode)
}

pub fn decode(_: &Words) -> Result<Report, Failure> {
    filter(cotelark::decode)
}

/// What the library makes of a field.
type Filter = for<'a> fn(&[u8], &'a mut [u8]) -> Result<&'a mut [u8], Refusal>;

fn filter(work: Filter) -> Result<Report, Failure> {
    let field = files::contents("standard input", io::stdin())?;
    let mut room = vec![0; field.len()];
    let made = work(&field, &mut room).map_err(|refusal| refused(refusal, format!("standard input has {}", counted(field.len(), "byte"))))?;
    let json = vec![("bytes", Json::Number(made.len())), ("hex", Json::text(in_hex(made)))];
    Ok(Report::new(vec![Part::Field(made.to_vec())], json))
}

pub fn search(words: &Words) -> Result<Report, Failure> {
    let (field_file, pattern_file) = (words.file(0), words.file(1));
    let (field, pattern) = (files::read(field_file)?, files::read(pattern_file)?);
    // No pattern has more places than the field has symbols.
    let mut list = vec![Symbols(0); field.len() / 2];
    let places = cotelark::search(&field, &pattern, &mut list).map_err(|refusal| {
        let length = |bytes: &[u8]| counted(bytes.len(), "byte");
        refused(refusal, format!("{} has {} and {} has {}", shown(field_file), length(&field), shown(pattern_file), length(&pattern)))
    })?;
    let found = format!("{} found in {}: {}", shown(pattern_file), shown(field_file), counted(places.len(), "place"));
    let mut parts = vec![Part::Line(found)];
    parts.extend(places.iter().map(|place| Part::Line(format!("symbol {}", commas(place.0)))));
    Ok(Report::new(parts, vec![("places", Json::list(places, |place| Json::Number(place.0)))]))
}

fn refused(refusal: Refusal, of: String) -> Failure {
    let advice = match refusal {
        Refusal::Long => "a field has at most 65,536 bytes, so take it in parts",
        Refusal::Odd => "a symbol is two bytes, so give an even number of them",
        _ => "give a pattern of two bytes or more",
    };
    Failure::Refused { refusal, of, advice: advice.to_string() }
}
