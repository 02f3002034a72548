//! The second program against the scope's numbers to check by hand, typed in from there, and against repairs worked out by hand.

use second::*;

fn bytes(symbols: &[u16]) -> Vec<u8> {
    symbols.iter().flat_map(|symbol| symbol.to_le_bytes()).collect()
}

fn signed(n: u64, symbols: &[u16]) -> [u16; 4] {
    sign(n, &bytes(symbols)).expect("allowed sizes").components
}

fn refusal(number: u32, value: u64) -> Refusal {
    Refusal { number, value }
}

#[test]
fn cases_1_to_6_sign() {
    assert_eq!(signed(2, &[]), [0, 0, 0, 0]);
    assert_eq!(signed(2, &[1, 2]), [5, 9, 0, 0]);
    assert_eq!(signed(2, &[0, 0x8000]), [0x100B, 0x2016, 0, 0]);
    assert_eq!(sign(2, &[0x41]).unwrap().components, [0x41, 0x41, 0, 0]);
    assert_eq!(sign(2, &[0x41, 0]).unwrap().components, [0x41, 0x41, 0, 0]);
    assert_eq!((signed(1, &[2, 0]), signed(1, &[0, 1])), ([2, 0, 0, 0], [2, 0, 0, 0]));
    assert_eq!((signed(2, &[2, 0]), signed(2, &[0, 1])), ([2, 2, 0, 0], [2, 4, 0, 0]));
    assert_eq!((signed(2, &[8, 6, 1]), signed(2, &[0, 0, 0])), ([0; 4], [0; 4]));
    assert_eq!(signed(3, &[8, 6, 1]), [0, 0, 0x78, 0]);
}

#[test]
fn cases_7_and_8_join_and_edit() {
    let (first, second) = (sign(2, &bytes(&[1])).unwrap(), sign(2, &bytes(&[2])).unwrap());
    assert_eq!(join(&first, 1, &second, 1).unwrap(), Signature { n: 2, components: [5, 9, 0, 0] });
    let page = Signature { n: 2, components: [5, 9, 0xFFFF, 1] };
    assert_eq!(edit(&page, 1, &bytes(&[2]), &bytes(&[3])).unwrap().components, [7, 0xD, 0, 0]);
}

#[test]
fn cases_9_to_11_captions() {
    let mut code = [0; 6];
    assert_eq!(encode(&bytes(&[1, 2, 3]), &mut code), Ok(6));
    assert_eq!(code.to_vec(), bytes(&[1, 5, 9]));
    let mut plain = [0; 6];
    assert_eq!(decode(&code, &mut plain), Ok(6));
    assert_eq!(plain.to_vec(), bytes(&[1, 2, 3]));
    let mut list = [77; 2];
    assert_eq!(search(&code, &bytes(&[2, 3]), &mut list), Ok(1));
    assert_eq!(list, [1, 77]);
    let mut code = [0; 4];
    encode(&bytes(&[2, 0]), &mut code).unwrap();
    assert_eq!((search(&code, &bytes(&[0, 1]), &mut list), list[0]), (Ok(1), 0));
}

const BUCKET: [u8; 6] = [1, 0, 2, 0, 3, 0];
const CASE_12: [u8; 32] = [1, 1, 0, 2, 2, 4, 0, 4, 0, 0, 0, 3, 4, 0, 6, 0, 0, 0, 4, 4, 0, 5, 0, 9, 0, 4, 4, 0, 3, 0, 3, 0];

#[test]
fn case_12_map() {
    let mut map = [0xEE; 33];
    assert_eq!(make_map(2, 4, &BUCKET, &mut map), Ok(32));
    assert_eq!((&map[..32], map[32]), (&CASE_12[..], 0xEE));
    let header = Header { n: 2, page_bytes: 4, bucket_bytes: 6, pages: 2 };
    assert_eq!(read_map(&CASE_12), Ok(header));
    assert_eq!(read_map(&CASE_12[..31]), Err(refusal(MAP, 25)));
    assert_eq!(read_map(&map), Err(refusal(MAP, 32)));
    assert_eq!(read_map(&[]), Err(refusal(MAP, 0)));
    let mut page_3 = CASE_12;
    page_3[7] = 3;
    assert_eq!(read_map(&page_3), Err(refusal(MAP, 4)));
}

#[test]
fn case_12_listing() {
    let mut text = [b'?'; 53];
    assert_eq!(list_map(&CASE_12, &mut text), Ok(52));
    assert_eq!(&text[..], b"n 2 page 4 bucket 6 pages 2\n0 0005 0009\n1 0003 0003\n?");
    assert_eq!(list_map(&CASE_12[..31], &mut text), Ok(18));
    assert_eq!(&text[..18], b"map refused at 25\n");
}

#[test]
fn a_store_writes_the_page_that_differs_and_a_load_brings_it_back() {
    let (mut image, mut map, mut list) = (BUCKET, CASE_12, [9, 9]);
    let table = [1, 0, 2, 0, 2, 0];
    let mut place = 0;
    assert_eq!(step(&mut place, &table, &mut image, &mut map), Ok(Step::Kept(0)));
    assert_eq!(store(&table, &mut image, &mut map, &mut list), Ok(1));
    assert_eq!((list, image, &map[28..]), ([1, 9], table, &[2, 0, 2, 0][..]));
    assert_eq!(step(&mut place, &BUCKET, &mut image, &mut map), Ok(Step::Written(1)));
    assert_eq!((image, map, place), (BUCKET, CASE_12, 2));
    assert_eq!(step(&mut place, &BUCKET, &mut image, &mut map), Ok(Step::Finished));
    assert_eq!(load_page(&image, &map, 1), Ok(4..6));
    image[0] = 9;
    assert_eq!(load_page(&image, &map, 1), Ok(4..6), "only the page asked for matters");
    assert_eq!(ask_page(&image, &map, 0), Some(refusal(DAMAGED, 0)));
    let mut lent = [7; 6];
    assert_eq!((load_bucket(&image, &map, &mut lent), lent), (Err(refusal(DAMAGED, 0)), [7; 6]));
    assert_eq!((load_bucket(&BUCKET, &map, &mut lent), lent), (Ok(6), BUCKET));
}

/// The map of a bucket with these entries, n components each, written out field by field.
fn map_with(page_bytes: u8, bucket_bytes: u8, entries: &[&[u16]]) -> Vec<u8> {
    let n = entries[0].len() as u8;
    let mut map = vec![1, 1, 0, n, 2, 4, 0, page_bytes, 0, 0, 0, 3, 4, 0, bucket_bytes, 0, 0, 0];
    for entry in entries {
        map.extend([4, 2 * n, 0]);
        map.extend(bytes(entry));
    }
    map
}

/// What a repair of the only page, with this entry, answers and leaves.
fn repair(page: &[u8], entry: &[u16]) -> (Repair, Vec<u8>) {
    let (mut image, map) = (page.to_vec(), map_with(8, page.len() as u8, &[entry]));
    (repair_page(&mut image, &map, 0).expect("n is 2 to 4"), image)
}

/// A page that stays as it is and is beyond repair.
fn beyond(page: &[u8], entry: &[u16]) {
    assert_eq!(repair(page, entry), (Repair::Beyond, page.to_vec()), "{entry:x?}");
}

#[test]
fn two_damaged_symbols_are_taken_for_one_with_n_2_only() {
    let damaged = bytes(&[8, 6, 0]);
    let repaired = Repair::Repaired { position: 2, old: 0, new: 1, marked: true };
    assert_eq!(repair(&damaged, &[0, 0]), (repaired, bytes(&[8, 6, 1])));
    assert_eq!(repair(&damaged[..5], &[0, 0]), (repaired, vec![8, 0, 6, 0, 1]));
    beyond(&damaged, &[0, 0, 0]);
    beyond(&damaged, &[0, 0, 0, 0]);
    // Without a third symbol there is none to be taken for the damaged one.
    beyond(&damaged[..4], &[0, 0]);
}

#[test]
fn the_pages_of_case_12_are_repaired() {
    let mut image = [1, 0, 3, 0, 4, 0];
    // (1, 3) has the signature (7, D), by case 8, and the entry differs from it by (2, 4): a 1 at position 1.
    assert_eq!(repair_page(&mut image, &CASE_12, 0), Ok(Repair::Repaired { position: 1, old: 3, new: 2, marked: true }));
    assert_eq!(image, [1, 0, 2, 0, 4, 0], "only the page asked for changes");
    assert_eq!(repair_page(&mut image, &CASE_12, 0), Ok(Repair::Whole));
    assert_eq!(repair_page(&mut image, &CASE_12, 1), Ok(Repair::Repaired { position: 0, old: 4, new: 3, marked: true }));
    assert_eq!(image, BUCKET);
    assert_eq!((repair_page(&mut image, &CASE_12, 1), image), (Ok(Repair::Whole), BUCKET));
}

#[test]
fn one_damaged_symbol_is_restored_at_every_position() {
    let page = bytes(&[1, 2, 0x8000, 0]);
    for n in 2..=4 {
        let entry = &signed(n, &[1, 2, 0x8000, 0])[..n as usize];
        assert_eq!(repair(&page, entry), (Repair::Whole, page.clone()));
        for (i, &symbol) in [1, 2, 0x8000, 0].iter().enumerate() {
            for value in [3, 0x41, 0x100, 0x7FFF, 0xFFFF] {
                let mut damaged = page.clone();
                damaged[2 * i..2 * i + 2].copy_from_slice(&u16::to_le_bytes(value));
                let repaired = Repair::Repaired { position: i as u64, old: value, new: symbol, marked: n == 2 };
                assert_eq!(repair(&damaged, entry), (repaired, page.clone()));
            }
        }
    }
}

#[test]
fn the_last_symbol_of_an_odd_page_has_its_low_byte_only() {
    let repaired = |position, old, new| Repair::Repaired { position, old, new, marked: true };
    assert_eq!(repair(&[0], &[0x41, 0x41]), (repaired(0, 0, 0x41), vec![0x41]));
    assert_eq!(repair(&[1, 0, 7], &[5, 9]), (repaired(1, 7, 2), vec![1, 0, 2]));
    // 141 at position 0 has the signature (141, 141), and (1, 102) has (205, 409).
    beyond(&[0], &[0x141, 0x141]);
    beyond(&[0x41], &[0x141, 0x141]);
    beyond(&[1, 0, 2], &[0x205, 0x409]);
    assert_eq!(repair(&[0x41, 0], &[0x141, 0x141]), (repaired(0, 0x41, 0x141), vec![0x41, 1]));
    assert_eq!(repair(&[1, 0, 2, 0], &[0x205, 0x409]), (repaired(1, 2, 0x102), vec![1, 0, 2, 1]));
}

#[test]
fn a_change_that_does_not_fit_is_beyond() {
    // A 1 at position 2 has the signature (4, 10, 40, 100).
    for n in 2..=4 {
        let entry = &[4, 0x10, 0x40, 0x100][..n];
        beyond(&[0; 4], entry);
        assert_eq!(repair(&[0; 5], entry), (Repair::Repaired { position: 2, old: 0, new: 1, marked: n == 2 }, vec![0, 0, 0, 0, 1]));
    }
    // A zero among the differences, and a third or fourth component that belongs to another change.
    for entry in [&[0, 5][..], &[5, 0], &[0, 0, 1], &[1, 1, 0], &[0, 0, 0, 1], &[1, 1, 2], &[1, 1, 1, 2], &[1, 1, 2, 1]] {
        beyond(&[0; 6], entry);
    }
}

#[test]
fn repairs_are_refused_by_map_match_pageno_and_thin() {
    let thin = map_with(4, 6, &[&[5], &[3]]);
    let refused = |bytes: &[u8], map: &[u8], page, number, value| {
        let mut image = bytes.to_vec();
        assert_eq!((repair_page(&mut image, map, page), &image[..]), (Err(refusal(number, value)), bytes));
    };
    for map in [&CASE_12[..], &thin] {
        let cut = &map[..map.len() - 1];
        let last_entry = 18 + (map.len() - 18) / 2;
        refused(&BUCKET, cut, 0, MAP, last_entry as u64);
        refused(&BUCKET[..5], cut, 2, MAP, last_entry as u64);
        refused(&BUCKET[..5], map, 0, MATCH, 0);
        refused(&BUCKET[..5], map, 2, MATCH, 0);
        refused(&BUCKET, map, 2, PAGENO, 0);
        refused(&BUCKET, map, u64::MAX, PAGENO, 0);
    }
    refused(&BUCKET, &thin, 0, THIN, 0);
    refused(&[1, 0, 9, 0, 3, 0], &thin, 0, THIN, 0);
    refused(&BUCKET, &thin, 1, THIN, 0);
}
