//! A table, its image and the image's map: stores, whole or a page a step, and loads of a page or of the bucket.

use crate::map::read_map;
use crate::{refuse_if, room_for, Header, Refusal, DAMAGED, MATCH, PAGENO};
use std::ops::Range;

/// What a step that is not refused answers.
#[derive(Clone, Copy, Debug, PartialEq, Eq)]
pub enum Step {
    Kept(u64),
    Written(u64),
    Finished,
}

/// Reads the map and holds the lengths that belong to it against its bucket bytes.
pub(crate) fn matched(map: &[u8], lengths: &[usize]) -> Result<Header, Refusal> {
    let header = read_map(map)?;
    refuse_if(lengths.iter().any(|&bytes| bytes as u64 != header.bucket_bytes), MATCH, 0)?;
    Ok(header)
}

/// Keeps or writes one page of a matched backup, and answers whether it was written.
fn store_page(header: &Header, page: u64, table: &[u8], image: &mut [u8], map: &mut [u8]) -> bool {
    let bytes = &table[header.page(page)];
    let signature = header.entry_of(bytes);
    let entry = &mut map[header.entry(page)];
    let differs = *entry != signature;
    if differs {
        image[header.page(page)].copy_from_slice(bytes);
        entry.copy_from_slice(&signature);
    }
    differs
}

/// Stores a table, lists the pages written, and answers how many they are.
pub fn store(table: &[u8], image: &mut [u8], map: &mut [u8], list: &mut [u64]) -> Result<u64, Refusal> {
    let header = matched(map, &[table.len(), image.len()])?;
    room_for(header.pages, list.len())?;
    let mut written = 0;
    for page in 0..header.pages {
        if store_page(&header, page, table, image, map) {
            list[written] = page;
            written += 1;
        }
    }
    Ok(written as u64)
}

/// One page of a store, the one at the place, which goes up by one when the page is kept or written.
pub fn step(place: &mut u64, table: &[u8], image: &mut [u8], map: &mut [u8]) -> Result<Step, Refusal> {
    let header = matched(map, &[table.len(), image.len()])?;
    let page = *place;
    refuse_if(page > header.pages, PAGENO, 0)?;
    if page == header.pages {
        return Ok(Step::Finished);
    }
    *place += 1;
    let written = store_page(&header, page, table, image, map);
    Ok(if written { Step::Written(page) } else { Step::Kept(page) })
}

fn damaged(header: &Header, page: u64, image: &[u8], map: &[u8]) -> bool {
    header.entry_of(&image[header.page(page)]) != map[header.entry(page)]
}

/// Where a page stands in the image, if its signature is its entry's.
pub fn load_page(image: &[u8], map: &[u8], page: u64) -> Result<Range<usize>, Refusal> {
    let header = matched(map, &[image.len()])?;
    refuse_if(page >= header.pages, PAGENO, 0)?;
    refuse_if(damaged(&header, page, image, map), DAMAGED, page)?;
    Ok(header.page(page))
}

/// The refusal that the same inputs get from a load of the page, if any.
pub fn ask_page(image: &[u8], map: &[u8], page: u64) -> Option<Refusal> {
    load_page(image, map, page).err()
}

/// Moves the image into the table once no page is found damaged, and answers the bytes moved.
pub fn load_bucket(image: &[u8], map: &[u8], table: &mut [u8]) -> Result<u64, Refusal> {
    let header = matched(map, &[image.len(), table.len()])?;
    if let Some(page) = (0..header.pages).find(|&page| damaged(&header, page, image, map)) {
        return Err(Refusal { number: DAMAGED, value: page });
    }
    table.copy_from_slice(image);
    Ok(header.bucket_bytes)
}
