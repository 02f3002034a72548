//! A table's backup in files: made, brought up to date, and loaded.

use crate::failure::Failure;
use crate::files::{self, InPlace};
use crate::json::Json;
use crate::names::{sizes_of, Backup, Names};
use crate::picture::{Picture, State};
use crate::report::{commas, counted, listed, share, shown, Part, Report};
use crate::words::Words;
use cotelark::{Bytes, Refusal};

const PAGE: usize = 4_096;
pub const N: usize = 4;

/// The bytes of the largest map: 4,096 pages with n = 4.
const LARGEST_MAP: usize = 45_074;

pub fn init(words: &Words) -> Result<Report, Failure> {
    let (table_file, image_file, map_file) = (words.file(0), words.file(1), words.file(2));
    files::all_different(&[table_file, image_file, map_file])?;
    let (page, n) = (words.page.unwrap_or(PAGE), words.n.unwrap_or(N));
    let table = files::read(table_file)?;
    let mut room = vec![0; LARGEST_MAP];
    let map = cotelark::make_map(n, Bytes(page), &table, &mut room).map_err(|refusal| {
        let of = format!("{} has {}, --page is {page} and --n is {n}", shown(table_file), counted(table.len(), "byte"));
        Failure::Refused { refusal, of, advice: how_to_make(refusal).to_string() }
    })?;
    files::create(image_file, &table, table_file)?;
    files::create(map_file, map, table_file).inspect_err(|_| files::remove(image_file))?;
    let pages = table.len().div_ceil(page);
    let made = format!("{} backed up to {} and {}", shown(table_file), shown(image_file), shown(map_file));
    let sizes = format!("{} in {} of {}, n = {n}", counted(table.len(), "byte"), counted(pages, "page"), commas(page));
    let json = vec![
        ("n", Json::Number(n)),
        ("page_bytes", Json::Number(page)),
        ("bucket_bytes", Json::Number(table.len())),
        ("pages", Json::Number(pages)),
        ("map_bytes", Json::Number(map.len())),
    ];
    Ok(Report::new(vec![Part::Line(format!("{made}: {sizes}"))], json))
}

fn how_to_make(refusal: Refusal) -> &'static str {
    match refusal {
        Refusal::Size => "give --n a number from 1 to 4",
        Refusal::Page => "give --page an even number from 2 to 65536",
        _ => "a bucket has at most 4,096 pages, so give --page a larger number",
    }
}

pub fn store(words: &Words) -> Result<Report, Failure> {
    let (table_file, image_file, map_file) = (words.file(0), words.file(1), words.file(2));
    files::all_different(&[table_file, image_file, map_file])?;
    let table = files::read(table_file)?;
    let (mut image, mut map) = (InPlace::open(image_file)?, InPlace::open(map_file)?);
    let sizes = sizes_of(map_file, &map.bytes)?;
    let names = Names { buckets: vec![(table_file, table.len()), (image_file, image.bytes.len())], map: map_file, sizes };
    let mut list = vec![0; sizes.pages];
    let written = cotelark::store(&table, &mut image.bytes, &mut map.bytes, &mut list).map_err(|refusal| names.refused(refusal))?;
    // No entry before its page is on the disk: so the map stays true, wherever this ends.
    image.write(written.iter().map(|&page| names.page(page)))?;
    map.write(written.iter().map(|&page| names.entry(page)))?;
    Ok(stored(&names, written))
}

/// What a store tells.
fn stored(names: &Names, written: &[usize]) -> Report {
    let (pages, bucket) = (names.sizes.pages, names.sizes.bucket.0);
    let bytes = written.iter().map(|&page| names.page(page).len()).sum();
    let in_pages = format!("{} of {}", commas(written.len()), counted(pages, "page"));
    let in_bytes = format!("{} of {}{}", commas(bytes), counted(bucket, "byte"), share(bytes, bucket));
    let mut parts = vec![Part::Line(format!("{} stored: {in_pages} written, {in_bytes}", shown(names.buckets[0].0)))];
    parts.extend(listed("written", written));
    parts.push(Part::Picture(Picture::new(pages, "kept", &[(State::Written, written)])));
    let json = vec![
        ("pages", Json::Number(pages)),
        ("written", Json::numbers(written)),
        ("bytes_written", Json::Number(bytes)),
        ("bucket_bytes", Json::Number(bucket)),
    ];
    Report::new(parts, json)
}

pub fn load(words: &Words) -> Result<Report, Failure> {
    let out_file = words.file(2);
    let Backup { image, map, names } = Backup::read(words.file(0), words.file(1))?;
    let mut table = vec![0; names.sizes.bucket.0];
    let Bytes(bytes) = cotelark::load_bucket(&image, &map, &mut table).map_err(|refusal| names.refused(refusal))?;
    files::create(out_file, &table, names.image())?;
    let (pages, loaded) = (names.sizes.pages, format!("{} loaded to {}", shown(names.image()), shown(out_file)));
    let line = format!("{loaded}: {}, each of its {} with its entry's signature", counted(bytes, "byte"), counted(pages, "page"));
    Ok(Report::new(vec![Part::Line(line)], vec![("bytes", Json::Number(bytes)), ("pages", Json::Number(pages))]))
}
