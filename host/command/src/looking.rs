//! Looking, without a change: at a page, at all pages, at a map, at a file's signature.

use crate::backup::N;
use crate::failure::Failure;
use crate::files;
use crate::json::Json;
use crate::names::{sizes_of, Backup};
use crate::picture::{Picture, State};
use crate::report::{commas, counted, in_hex, listed, shown, Part, Report};
use crate::words::Words;
use cotelark::{Bytes, Refusal, Signature};

pub fn page(words: &Words) -> Result<Report, Failure> {
    let Backup { image, map, names } = Backup::read(words.file(0), words.file(1))?;
    let k = words.k.expect("an operand that is not left out");
    let page = cotelark::load_page(&image, &map, k).map_err(|refusal| names.refused(refusal))?;
    let signature = cotelark::sign(names.sizes.n, page).expect("the load has signed it");
    let place = names.page(k);
    let of = format!("page {} of {}", commas(k), shown(names.image()));
    let bytes = format!("bytes {} to {} of the table", commas(place.start), commas(place.end - 1));
    let mut parts = vec![Part::Line(format!("{of}: {bytes}, signature {}", in_components(&signature)))];
    parts.extend(place.clone().step_by(16).zip(page.chunks(16)).map(|(offset, row)| Part::Line(dumped(offset, row))));
    let json = vec![
        ("page", Json::Number(k)),
        ("start", Json::Number(place.start)),
        ("bytes", Json::Number(page.len())),
        ("signature", as_numbers(&signature)),
        ("hex", Json::text(in_hex(page))),
    ];
    Ok(Report::new(parts, json))
}

/// A row of bytes: where it starts, in hex, and as letters.
fn dumped(offset: usize, row: &[u8]) -> String {
    let hex: Vec<String> = row.iter().map(|byte| format!("{byte:02x}")).collect();
    let letters: String = row.iter().map(|&byte| if byte == b' ' || byte.is_ascii_graphic() { char::from(byte) } else { '.' }).collect();
    format!("{offset:08x}  {:<47}  {letters}", hex.join(" "))
}

pub fn check(words: &Words) -> Result<Report, Failure> {
    let Backup { image, map, names } = Backup::read(words.file(0), words.file(1))?;
    let pages = names.sizes.pages;
    let damaged: Vec<usize> = (0..pages).filter(|&page| cotelark::ask_page(&image, &map, page).is_err()).collect();
    let figures = format!("{} of {} damaged", commas(damaged.len()), counted(pages, "page"));
    let mut parts = vec![Part::Line(format!("{} checked: {figures}", shown(names.image())))];
    parts.extend(listed("damaged", &damaged));
    parts.push(Part::Picture(Picture::new(pages, "whole", &[(State::Damaged, &damaged)])));
    let against = damaged.first().map(|&page| names.refused(Refusal::Damaged { page }));
    let json = vec![("pages", Json::Number(pages)), ("damaged", Json::numbers(&damaged))];
    Ok(Report::new(parts, json).against(against))
}

pub fn list(words: &Words) -> Result<Report, Failure> {
    let map_file = words.file(0);
    let map = files::read(map_file)?;
    let sizes = sizes_of(map_file, &map)?;
    // A line is a page number of at most four digits and n components, or the sizes.
    let mut room = vec![0; 64 + 32 * sizes.pages];
    let text = cotelark::list_map(&map, &mut room).expect("the room suffices");
    let entry = |line: &str| Json::list(line.split(' ').skip(1), |hex| Json::Number(usize::from_str_radix(hex, 16).expect("a component")));
    let json = vec![
        ("n", Json::Number(sizes.n)),
        ("page_bytes", Json::Number(sizes.page.0)),
        ("bucket_bytes", Json::Number(sizes.bucket.0)),
        ("pages", Json::Number(sizes.pages)),
        ("entries", Json::list(text.lines().skip(1), entry)),
    ];
    Ok(Report::new(vec![Part::Line(text.trim_end().to_string())], json))
}

pub fn sign(words: &Words) -> Result<Report, Failure> {
    let file = shown(words.file(0));
    let object = files::read(words.file(0))?;
    let n = words.n.unwrap_or(N);
    let signature = cotelark::sign(n, &object).map_err(|refusal| {
        let of = format!("{file} has {} and --n is {n}", counted(object.len(), "byte"));
        let advice = match refusal {
            Refusal::Size => "give --n a number from 1 to 4",
            _ => "give a file of at most 131,068 bytes, or have `cotelark init` sign it page by page",
        };
        Failure::Refused { refusal, of, advice: advice.to_string() }
    })?;
    let symbols = Bytes(object.len()).symbols().0;
    let line = format!("{file}: {}, {}, signature {}", counted(object.len(), "byte"), counted(symbols, "symbol"), in_components(&signature));
    let json = vec![
        ("n", Json::Number(n)),
        ("bytes", Json::Number(object.len())),
        ("symbols", Json::Number(symbols)),
        ("signature", as_numbers(&signature)),
    ];
    Ok(Report::new(vec![Part::Line(line)], json))
}

fn in_components(signature: &Signature) -> String {
    signature.components().iter().map(|component| format!("{component:04x}")).collect::<Vec<String>>().join(" ")
}

fn as_numbers(signature: &Signature) -> Json {
    Json::list(signature.components(), |&component| Json::Number(usize::from(component)))
}
