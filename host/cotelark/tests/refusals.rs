//! Each refusal by a call that earns it: number, name, value and sentence. And the places of pages and entries by the map's sizes.

use cotelark::*;
use std::error::Error;

/// The scope's case 12.
const BUCKET: [u8; 6] = [1, 0, 2, 0, 3, 0];

fn map_of(n: usize, page: usize, bucket: &[u8]) -> Vec<u8> {
    let mut room = vec![0; 45_074];
    make_map(n, Bytes(page), bucket, &mut room).expect("allowed sizes").to_vec()
}

#[test]
fn each_refusal_in_a_sentence() {
    let map = map_of(2, 4, &BUCKET);
    let thin = map_of(1, 4, &BUCKET);
    let damaged = [1, 0, 2, 0, 3, 1];
    let refusals = [
        (sign(5, &[]).map(drop), 1, "SIZE", 0, "n is not from 1 to 4"),
        (make_map(2, Bytes(3), &[], &mut []).map(drop), 2, "PAGE", 0, "the bytes of a page are not an even number from 2 to 65,536"),
        (sign(1, &[0; 131_069]).map(drop), 3, "LONG", 0, "an object, a bucket, its page count or a caption field is above its limit"),
        (encode(&[1], &mut []).map(drop), 4, "ODD", 0, "there is an odd number of bytes where whole symbols are due"),
        (read_map(&map[..31]).map(drop), 5, "MAP", 25, "the map breaks a rule at byte 25"),
        (ask_page(&[], &map, 0), 6, "MATCH", 0, "two lengths, or two n, that belong together differ"),
        (make_map(2, Bytes(4), &BUCKET, &mut [0; 31]).map(drop), 7, "ROOM", 32, "an output is shorter than the 32 that are needed"),
        (search(&[], &[], &mut []).map(drop), 8, "EMPTY", 0, "the pattern has no symbol"),
        (ask_page(&BUCKET, &map, 2), 9, "PAGENO", 0, "there is no page of this number"),
        (ask_page(&damaged, &map, 1), 10, "DAMAGED", 1, "page 1 does not have the signature of its entry"),
        (repair_page(&mut BUCKET.clone(), &thin, 0).map(drop), 14, "THIN", 0, "n = 1 does not tell which symbol of a page is damaged"),
    ];
    for (answer, number, name, value, sentence) in refusals {
        let refusal = answer.expect_err(name);
        assert_eq!((refusal.number(), refusal.name(), refusal.value()), (number, name, value));
        assert_eq!(refusal.to_string(), format!("{name} ({number}), value {value}: {sentence}"));
        assert!(Box::<dyn Error>::from(refusal).is::<Refusal>());
    }
}

#[test]
fn pages_and_entries_fill_image_and_map() {
    for (n, page, bucket) in [(1, 2, 0), (2, 4, 6), (3, 10, 31), (4, 4_096, 16_777_216), (4, 65_536, 65_537)] {
        let map = map_of(n, page, &vec![1; bucket]);
        let sizes = read_map(&map).expect("a good map");
        assert_eq!((sizes.n, sizes.page, sizes.bucket, sizes.pages), (n, Bytes(page), Bytes(bucket), bucket.div_ceil(page)));
        let (mut page_start, mut entry_start) = (0, 18);
        for k in 0..sizes.pages {
            let (page, entry) = (sizes.page_range(k).expect("a page"), sizes.entry_range(k).expect("an entry"));
            assert_eq!((page.start, entry.start), (page_start, entry_start));
            assert_eq!((map[entry.start], page.is_empty()), (4, false));
            (page_start, entry_start) = (page.end, entry.end);
        }
        assert_eq!((page_start, entry_start), (bucket, map.len()));
        for k in [sizes.pages, usize::MAX] {
            assert_eq!((sizes.page_range(k), sizes.entry_range(k)), (None, None));
        }
    }
}

#[test]
fn a_loaded_page_is_a_part_of_the_image() {
    let map = map_of(2, 4, &BUCKET);
    let page = load_page(&BUCKET, &map, 1).expect("a whole page");
    assert!(std::ptr::eq(page, &BUCKET[4..]));
}

#[test]
fn a_refused_step_leaves_its_place() {
    let mut map = map_of(2, 4, &BUCKET);
    let mut place = Place::at(3);
    assert_eq!(place.step(&BUCKET, &mut BUCKET.clone(), &mut map), Err(Refusal::PageNo));
    assert_eq!(place.page(), 3);
    assert_eq!(Place::default(), Place::START);
}
