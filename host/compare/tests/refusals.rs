//! Each operation's refusals, alone and in pairs, with the numbers and values of the scope: the lower number wins.
//! Where two refusals of an operation cannot apply together, a comment says why.

use compare::call::Call;
use compare::handed::*;
use compare::library::{DAMAGED, EMPTY, LONG, MAP, MATCH, ODD, PAGE, PAGENO, REFUSED, ROOM, SIZE, THIN};
use compare::{done, refused, BUCKET, ITS_MAP};

/// Case 12's map with its last field cut short, which breaks at 25.
const CUT: &[u8] = ITS_MAP.split_at(31).0;
/// A table or image one byte shorter than the map says.
const SHORT: &[u8] = BUCKET.split_at(5).0;
/// An image whose two pages both differ from their entries.
const BAD: [u8; 6] = [1, 0, 2, 1, 3, 1];
/// Case 12's map with the first component of each entry only, n = 1.
const THIN_MAP: [u8; 28] = [1, 1, 0, 1, 2, 4, 0, 4, 0, 0, 0, 3, 4, 0, 6, 0, 0, 0, 4, 2, 0, 5, 0, 4, 2, 0, 3, 0];

#[test]
fn sign_1_3() {
    let long = vec![1; 131_069];
    for n in [0, 5, 1 << 32 | 1, u64::MAX] {
        refused(&sign(n, &BUCKET), SIZE, 0);
        refused(&sign(n, &long), SIZE, 0);
    }
    refused(&sign(2, &long), LONG, 0);
}

#[test]
fn join_1_3_6() {
    let part = |n, symbols| (n, [1, 2, 3, 4], symbols);
    for n in [0, 5, u64::MAX] {
        refused(&join(part(n, 1), part(n, 1)), SIZE, 0);
        refused(&join(part(n, 65_535), part(n, 1)), SIZE, 0);
        refused(&join(part(n, 1), part(2, 1)), SIZE, 0);
        refused(&join(part(2, 1), part(n, 1)), SIZE, 0);
    }
    refused(&join(part(2, 65_534), part(2, 1)), LONG, 0);
    refused(&join(part(2, 65_534), part(3, 1)), LONG, 0);
    refused(&join(part(2, 1), part(3, 1)), MATCH, 0);
}

#[test]
fn edit_1_3_4_6() {
    let edit = |n, at, old: &[u8], new: &[u8]| edit(n, [1, 2, 3, 4], at, old, new);
    for n in [0, 5, u64::MAX] {
        refused(&edit(n, 0, &[1, 1], &[2, 2]), SIZE, 0);
        refused(&edit(n, 65_534, &[1, 1], &[2, 2]), SIZE, 0);
        refused(&edit(n, 0, &[1], &[2]), SIZE, 0);
        refused(&edit(n, 0, &[1, 1], &[]), SIZE, 0);
    }
    refused(&edit(2, 65_534, &[1, 1], &[2, 2]), LONG, 0);
    refused(&edit(2, 65_534, &[1], &[2]), LONG, 0);
    refused(&edit(2, 65_534, &[1, 1], &[]), LONG, 0);
    refused(&edit(2, 0, &[1], &[2]), ODD, 0);
    refused(&edit(2, 0, &[1], &[2, 2]), ODD, 0);
    refused(&edit(2, 0, &[1, 1], &[2]), ODD, 0);
    refused(&edit(2, 0, &[1, 1], &[]), MATCH, 0);
}

#[test]
fn make_map_1_2_3_7() {
    let long = vec![0; 16_777_217];
    for (n, bucket, page, room) in [(0, &BUCKET[..], 4, 40), (5, &BUCKET, 3, 40), (u64::MAX, &long, 65_536, 4_000), (0, &BUCKET, 4, 0)] {
        refused(&make_map(n, page, bucket, room), SIZE, 0);
    }
    for (bucket, page, room) in [(&BUCKET[..], 3, 40), (&long, 65_538, 4_000), (&BUCKET, 0, 0)] {
        refused(&make_map(2, page, bucket, room), PAGE, 0);
    }
    refused(&make_map(2, 65_536, &long, 4_000), LONG, 0);
    refused(&make_map(2, 65_536, &long, 0), LONG, 0);
    refused(&make_map(2, 4, &BUCKET, 31), ROOM, 32);
}

#[test]
fn read_map_5() {
    let refusal = compare::both(&read_map(CUT));
    assert_eq!(refusal.status, MAP);
    let Call::ReadMap { n: 0, page_bytes: 0, bucket_bytes: 0, pages: 0, value: 25, .. } = refusal.after else { panic!() };
}

#[test]
fn list_map_7() {
    refused(&list_map(&ITS_MAP, 51), ROOM, 52);
    refused(&list_map(CUT, 17), ROOM, 18);
}

#[test]
fn store_5_6_7() {
    refused(&store(&BUCKET, &BUCKET, CUT, 2), MAP, 25);
    refused(&store(SHORT, &BUCKET, CUT, 2), MAP, 25);
    refused(&store(&BUCKET, &BUCKET, CUT, 0), MAP, 25);
    for (table, image) in [(SHORT, &BUCKET[..]), (&BUCKET, SHORT), (SHORT, SHORT)] {
        refused(&store(table, image, &ITS_MAP, 2), MATCH, 0);
        refused(&store(table, image, &ITS_MAP, 0), MATCH, 0);
    }
    refused(&store(&BUCKET, &BUCKET, &ITS_MAP, 1), ROOM, 2);
}

#[test]
fn step_5_6_9() {
    refused(&step(0, &BUCKET, &BUCKET, CUT), MAP, 25);
    refused(&step(0, SHORT, &BUCKET, CUT), MAP, 25);
    for (table, image) in [(SHORT, &BUCKET[..]), (&BUCKET, SHORT), (SHORT, SHORT)] {
        refused(&step(0, table, image, &ITS_MAP), MATCH, 0);
        refused(&step(2, table, image, &ITS_MAP), MATCH, 0);
        refused(&step(3, table, image, &ITS_MAP), MATCH, 0);
    }
    for place in [3, u64::MAX] {
        refused(&step(place, &BUCKET, &BUCKET, CUT), MAP, 25);
        refused(&step(place, &BUCKET, &BUCKET, &ITS_MAP), PAGENO, 0);
    }
}

// PAGENO and DAMAGED cannot apply together: a page that is not there has no image signature.
#[test]
fn load_page_and_ask_page_5_6_9_10() {
    for put in [load_page, ask_page] {
        refused(&put(&BUCKET, CUT, 0), MAP, 25);
        refused(&put(SHORT, CUT, 0), MAP, 25);
        refused(&put(&BUCKET, CUT, 2), MAP, 25);
        refused(&put(&BAD, CUT, 0), MAP, 25);
        refused(&put(SHORT, &ITS_MAP, 0), MATCH, 0);
        refused(&put(SHORT, &ITS_MAP, 2), MATCH, 0);
        refused(&put(&BAD[..5], &ITS_MAP, 0), MATCH, 0);
        refused(&put(&BUCKET, &ITS_MAP, 2), PAGENO, 0);
        refused(&put(&BUCKET, &ITS_MAP, u64::MAX), PAGENO, 0);
        refused(&put(&BAD, &ITS_MAP, 0), DAMAGED, 0);
        refused(&put(&BAD, &ITS_MAP, 1), DAMAGED, 1);
    }
    let Call::LoadPage { start: 4, bytes: 2, value: 0, .. } = done(&load_page(&BUCKET, &ITS_MAP, 1)) else { panic!() };
    let Call::AskPage { value: 0, .. } = done(&ask_page(&BUCKET, &ITS_MAP, 1)) else { panic!() };
}

#[test]
fn load_bucket_5_6_10() {
    refused(&load_bucket(&BUCKET, CUT, &[0; 6]), MAP, 25);
    refused(&load_bucket(&BUCKET, CUT, &[0; 7]), MAP, 25);
    refused(&load_bucket(&BAD, CUT, &[0; 6]), MAP, 25);
    for (image, table) in [(&BUCKET[..], &[0; 5][..]), (SHORT, &[0; 6]), (SHORT, &[0; 5])] {
        refused(&load_bucket(image, &ITS_MAP, table), MATCH, 0);
    }
    refused(&load_bucket(&BAD, &ITS_MAP, &[0; 7]), MATCH, 0);
    refused(&load_bucket(&BAD, &ITS_MAP, &[0; 6]), DAMAGED, 0);
    refused(&load_bucket(&[1, 0, 2, 0, 3, 1], &ITS_MAP, &[0; 6]), DAMAGED, 1);
}

/// A refused repair: it tells of no symbol, and leaves the image as it was.
fn repair_refused(image: &[u8], map: &[u8], page: u64, number: u32, value: u64) {
    let call = repair_page(image, map, page);
    refused(&call, number, value);
    let Call::RepairPage { image: after, answer, position, old_symbol, new_symbol, marked, .. } = compare::both(&call).after else { panic!() };
    assert_eq!((answer, position, old_symbol, new_symbol, marked), (REFUSED, 0, 0, 0, 0), "{call}");
    assert_eq!(after, image);
}

#[test]
fn repair_page_5_6_9_14() {
    for image in [BUCKET, BAD] {
        for (map, last_entry) in [(&ITS_MAP[..], 25), (&THIN_MAP, 23)] {
            let cut = &map[..map.len() - 1];
            repair_refused(&image, cut, 0, MAP, last_entry);
            repair_refused(&image[..5], cut, 0, MAP, last_entry);
            repair_refused(&image, cut, 2, MAP, last_entry);
            repair_refused(&image[..5], map, 0, MATCH, 0);
            repair_refused(&[&image[..], &[0]].concat(), map, 0, MATCH, 0);
            repair_refused(&image[..5], map, 2, MATCH, 0);
            repair_refused(&image, map, 2, PAGENO, 0);
            repair_refused(&image, map, u64::MAX, PAGENO, 0);
        }
        repair_refused(&image, &THIN_MAP, 0, THIN, 0);
        repair_refused(&image, &THIN_MAP, 1, THIN, 0);
    }
}

#[test]
fn encode_and_decode_3_4_7() {
    let long = vec![1; 65_538];
    for put in [encode, decode] {
        refused(&put(&long, 65_538), LONG, 0);
        refused(&put(&long[1..], 65_538), LONG, 0);
        refused(&put(&long, 0), LONG, 0);
        refused(&put(&[1, 2, 3], 4), ODD, 0);
        refused(&put(&[1, 2, 3], 0), ODD, 0);
        refused(&put(&[1, 2, 3, 4], 3), ROOM, 4);
    }
}

// ROOM and EMPTY cannot apply together: an empty pattern needs no room.
#[test]
fn search_3_4_7_8() {
    let long = vec![1; 65_538];
    refused(&search(&long, &[1, 1], 40_000), LONG, 0);
    refused(&search(&long[1..], &[1, 1], 40_000), LONG, 0);
    refused(&search(&long, &[1], 40_000), LONG, 0);
    refused(&search(&long, &[1, 1], 0), LONG, 0);
    refused(&search(&long, &[], 0), LONG, 0);
    refused(&search(&[1, 2, 3], &[1, 1], 2), ODD, 0);
    refused(&search(&[1, 2], &[1], 2), ODD, 0);
    refused(&search(&[1, 2, 3], &[1, 1], 0), ODD, 0);
    refused(&search(&[1, 2, 3], &[], 0), ODD, 0);
    refused(&search(&[1, 2, 3, 4], &[1, 1], 1), ROOM, 2);
    refused(&search(&[1, 2, 3, 4], &[], 0), EMPTY, 0);
    refused(&search(&[], &[], 0), EMPTY, 0);
}
