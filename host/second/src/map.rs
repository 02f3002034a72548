//! The signature map of a bucket: made, read field by field, and listed as text.

use crate::signature::{components, symbols};
use crate::{bucket_allowed, page_allowed, refuse_if, room_for, size_allowed, Refusal, LONG, MAP, PAGE, SIZE};
use std::fmt::Write;
use std::ops::Range;

const TAG_N: u8 = 1;
const TAG_PAGE: u8 = 2;
const TAG_BUCKET: u8 = 3;
const TAG_ENTRY: u8 = 4;

/// Tag and length.
const PREFIX_BYTES: usize = 3;
/// The fields before the first entry.
const HEADER_BYTES: usize = 18;

/// What the first three fields of a map say, and the page count that follows.
#[derive(Clone, Copy, Debug, PartialEq, Eq)]
pub struct Header {
    pub n: u64,
    pub page_bytes: u64,
    pub bucket_bytes: u64,
    pub pages: u64,
}

impl Header {
    fn new(n: u64, page_bytes: u64, bucket_bytes: u64) -> Header {
        Header { n, page_bytes, bucket_bytes, pages: bucket_bytes.div_ceil(page_bytes) }
    }

    /// Where a page stands in the bucket; the last one may be short.
    pub(crate) fn page(&self, page: u64) -> Range<usize> {
        let start = page * self.page_bytes;
        start as usize..self.bucket_bytes.min(start + self.page_bytes) as usize
    }

    /// Where a page's components stand in the map.
    pub(crate) fn entry(&self, page: u64) -> Range<usize> {
        let value_bytes = 2 * self.n as usize;
        let start = HEADER_BYTES + page as usize * (PREFIX_BYTES + value_bytes) + PREFIX_BYTES;
        start..start + value_bytes
    }

    /// The value that the entry of a page with these bytes has.
    pub(crate) fn entry_of(&self, page: &[u8]) -> Vec<u8> {
        let signature = components(self.n, page);
        signature[..self.n as usize].iter().flat_map(|component| component.to_le_bytes()).collect()
    }

    fn map_bytes(&self) -> u64 {
        HEADER_BYTES as u64 + self.pages * (PREFIX_BYTES as u64 + 2 * self.n)
    }
}

/// Makes the map of a bucket at the start of the output, and answers the bytes written.
pub fn make_map(n: u64, page_bytes: u64, bucket: &[u8], output: &mut [u8]) -> Result<u64, Refusal> {
    refuse_if(!size_allowed(n), SIZE, 0)?;
    refuse_if(!page_allowed(page_bytes), PAGE, 0)?;
    refuse_if(!bucket_allowed(bucket.len() as u64, page_bytes), LONG, 0)?;
    let header = Header::new(n, page_bytes, bucket.len() as u64);
    room_for(header.map_bytes(), output.len())?;
    let mut map = Vec::new();
    add_field(&mut map, TAG_N, &[n as u8]);
    add_field(&mut map, TAG_PAGE, &(page_bytes as u32).to_le_bytes());
    add_field(&mut map, TAG_BUCKET, &(bucket.len() as u32).to_le_bytes());
    for page in bucket.chunks(page_bytes as usize) {
        add_field(&mut map, TAG_ENTRY, &header.entry_of(page));
    }
    output[..map.len()].copy_from_slice(&map);
    Ok(map.len() as u64)
}

fn add_field(map: &mut Vec<u8>, tag: u8, value: &[u8]) {
    map.push(tag);
    map.extend((value.len() as u16).to_le_bytes());
    map.extend(value);
}

/// A map's bytes and the offset of the field that is due.
struct Reader<'a> {
    map: &'a [u8],
    place: usize,
}

impl<'a> Reader<'a> {
    /// Takes off the field that is due, if it has this tag and length and its value keeps the rule.
    fn field(&mut self, tag: u8, length: u16, rule: impl Fn(u64) -> bool) -> Result<u64, Refusal> {
        let value = self.value(tag, length).filter(|&value| rule(value));
        let value = value.ok_or(Refusal { number: MAP, value: self.place as u64 })?;
        self.place += PREFIX_BYTES + usize::from(length);
        Ok(value)
    }

    fn value(&self, tag: u8, length: u16) -> Option<u64> {
        let [low, high] = length.to_le_bytes();
        let value = self.map[self.place..].strip_prefix(&[tag, low, high])?.get(..usize::from(length))?;
        Some(value.iter().rev().fold(0, |number, &byte| number << 8 | u64::from(byte)))
    }
}

/// What a map says, once all of it is found to keep its rules.
pub fn read_map(map: &[u8]) -> Result<Header, Refusal> {
    let mut reader = Reader { map, place: 0 };
    let n = reader.field(TAG_N, 1, size_allowed)?;
    let page_bytes = reader.field(TAG_PAGE, 4, page_allowed)?;
    let bucket_bytes = reader.field(TAG_BUCKET, 4, |bytes| bucket_allowed(bytes, page_bytes))?;
    let header = Header::new(n, page_bytes, bucket_bytes);
    for _ in 0..header.pages {
        reader.field(TAG_ENTRY, 2 * n as u16, |_| true)?;
    }
    refuse_if(reader.place != map.len(), MAP, reader.place as u64)?;
    Ok(header)
}

/// Writes a map as text to the start of the output, and answers the bytes written.
pub fn list_map(map: &[u8], output: &mut [u8]) -> Result<u64, Refusal> {
    let text = match read_map(map) {
        Ok(header) => listing(&header, map),
        Err(refusal) => format!("map refused at {}\n", refusal.value),
    };
    room_for(text.len() as u64, output.len())?;
    output[..text.len()].copy_from_slice(text.as_bytes());
    Ok(text.len() as u64)
}

fn listing(header: &Header, map: &[u8]) -> String {
    let Header { n, page_bytes, bucket_bytes, pages } = header;
    let mut text = format!("n {n} page {page_bytes} bucket {bucket_bytes} pages {pages}\n");
    for page in 0..*pages {
        let entry: String = symbols(&map[header.entry(page)]).map(|component| format!(" {component:04x}")).collect();
        writeln!(text, "{page}{entry}").expect("a string takes any text");
    }
    text
}
