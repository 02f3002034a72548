//! Small maps with each byte changed to each other value, cut at each length and extended, through every operation that
//! reads a map.

use compare::call::{Call, Outcome};
use compare::handed::*;
use compare::library::MAP;
use compare::run::true_map;
use compare::{both, BUCKET, ITS_MAP};

/// Every call that takes a map, on an image that is the map's and a table that differs from it in its last byte.
fn readings(image: &[u8], map: &[u8]) -> Vec<Call> {
    let mut table = image.to_vec();
    if let Some(last) = table.last_mut() {
        *last ^= 0x81;
    }
    let pages = image.len().div_ceil(4);
    vec![
        read_map(map),
        list_map(map, 120),
        store(&table, image, map, pages),
        step(0, &table, image, map),
        load_page(image, map, pages.saturating_sub(1) as u64),
        ask_page(image, map, 0),
        load_bucket(image, map, &table),
        repair_page(image, map, pages.saturating_sub(1) as u64),
    ]
}

/// Has both programs read a map in every way; it is refused at the place named, or by none as broken.
fn read_in_every_way(image: &[u8], map: &[u8], broken_at: Option<usize>) {
    for call in readings(image, map) {
        let outcome = both(&call);
        match broken_at {
            Some(place) if call.operation() == "ListMap" => assert_eq!(text(&outcome), format!("map refused at {place}\n")),
            Some(place) => assert_eq!((outcome.status, outcome.after.value()), (MAP, place as u64), "{call}"),
            None => assert_ne!(outcome.status, MAP, "{call}"),
        }
    }
}

fn text(listed: &Outcome) -> String {
    let Call::ListMap { output, value, .. } = &listed.after else { panic!("{listed}") };
    String::from_utf8_lossy(&output[..*value as usize]).into_owned()
}

/// Maps of pages of 4 bytes with every n, of an empty bucket, and with odd last pages, beside their buckets.
fn backups() -> Vec<(Vec<u8>, Vec<u8>)> {
    let bucket = [0x31, 0x41, 0x59, 0x26, 0x53, 0x58, 0x97, 0x93, 0x23];
    let other = [(1, &bucket[..]), (3, &bucket[..5]), (4, &bucket[..7]), (2, &[])];
    let maps = other.map(|(n, bucket)| (bucket.to_vec(), true_map(n, 4, bucket)));
    [(BUCKET.to_vec(), ITS_MAP.to_vec())].into_iter().chain(maps).collect()
}

/// The offsets of the fields' tags.
fn fields(map: &[u8]) -> Vec<usize> {
    let entries = (18..map.len()).step_by(3 + 2 * usize::from(map[3]));
    [0, 4, 11].into_iter().chain(entries).collect()
}

#[test]
fn cut_and_extended_maps() {
    for (bucket, map) in backups() {
        let fields = fields(&map);
        for length in 0..map.len() {
            let break_at = fields.iter().rfind(|&&field| field <= length);
            read_in_every_way(&bucket, &map[..length], break_at.copied());
        }
        for more in 1..=3 {
            read_in_every_way(&bucket, &[&map[..], &[4; 3][..more]].concat(), Some(map.len()));
        }
    }
}

/// Where a map breaks when the byte at `index`, in the field at `field`, is changed to `byte`.
fn break_by(map: &[u8], field: usize, index: usize, byte: u8) -> Option<usize> {
    let entry_bytes = 3 + 2 * usize::from(map[3]);
    let entries = (map.len() - 18) / entry_bytes;
    let (page, bucket) = (number_with(map, 7, index, byte), number_with(map, 14, index, byte));
    match (field, index - field) {
        (_, 0..=2) => Some(field),
        (0, _) if !(1..=4).contains(&byte) => Some(0),
        (0, _) => (entries > 0).then_some(18),
        (4, _) if !(2..=65_536).contains(&page) || page % 2 == 1 => Some(4),
        (11, _) if bucket > 16_777_216 || bucket.div_ceil(page) > 4_096 => Some(11),
        (4 | 11, _) => {
            let due = bucket.div_ceil(page);
            (due != entries).then_some(18 + due.min(entries) * entry_bytes)
        }
        _ => None,
    }
}

/// The four bytes from `start` on as a number, with one byte of the map changed.
fn number_with(map: &[u8], start: usize, index: usize, byte: u8) -> usize {
    (0..4).map(|k| usize::from(if start + k == index { byte } else { map[start + k] }) << (8 * k)).sum()
}

#[test]
fn each_byte_changed_to_each_other_value() {
    for (bucket, map) in backups() {
        let fields = fields(&map);
        for index in 0..map.len() {
            let field = *fields.iter().rfind(|&&field| field <= index).expect("the first field is at 0");
            for change in 1..=255 {
                let mut changed = map.clone();
                changed[index] ^= change;
                read_in_every_way(&bucket, &changed, break_by(&map, field, index, changed[index]));
            }
        }
    }
}
