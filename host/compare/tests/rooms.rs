//! Outputs and lists that are shorter than needed, exact and longer: what is refused, and that nothing past the part
//! written changes.

use compare::call::Call;
use compare::handed::*;
use compare::library::ROOM;
use compare::{done, refused, BUCKET, ITS_MAP};

/// Tries a call at every sort of room: refused below what it needs, and done from there on.
fn at_each_room(needed: usize, call: impl Fn(usize) -> Call, check: impl Fn(Call)) {
    for room in [0, needed / 2, needed - 1] {
        refused(&call(room), ROOM, needed as u64);
    }
    for room in [needed, needed + 1, needed + 7, needed + 1_000] {
        check(done(&call(room)));
    }
}

/// An output whose first bytes are those expected, and the rest as it was.
fn starts_with(output: &[u8], value: u64, expected: &[u8]) {
    assert_eq!((value, &output[..expected.len()]), (expected.len() as u64, expected));
    assert!(output[expected.len()..].iter().all(|&byte| byte == JUNK_BYTE));
}

fn lists(list: &[u64], value: u64, expected: &[u64]) {
    assert_eq!((value, &list[..expected.len()]), (expected.len() as u64, expected));
    assert!(list[expected.len()..].iter().all(|&number| number == JUNK_NUMBER));
}

#[test]
fn maps_and_listings() {
    let check = |after| {
        let Call::MakeMap { output, value, .. } = after else { panic!() };
        starts_with(&output, value, &ITS_MAP);
    };
    at_each_room(32, |room| make_map(2, 4, &BUCKET, room), check);
    let listed = |map: &'static [u8], text: &'static [u8]| {
        let check = |after| {
            let Call::ListMap { output, value, .. } = after else { panic!() };
            starts_with(&output, value, text);
        };
        at_each_room(text.len(), |room| list_map(map, room), check);
    };
    listed(&ITS_MAP, b"n 2 page 4 bucket 6 pages 2\n0 0005 0009\n1 0003 0003\n");
    listed(&ITS_MAP[..18], b"map refused at 18\n");
    listed(&[], b"map refused at 0\n");
}

#[test]
fn captions() {
    let (plain, code) = ([1, 0, 2, 0, 3, 0], [1, 0, 5, 0, 9, 0]);
    let check = |after| {
        let Call::Encode { output, value, .. } = after else { panic!() };
        starts_with(&output, value, &code);
    };
    at_each_room(6, |room| encode(&plain, room), check);
    let check = |after| {
        let Call::Decode { output, value, .. } = after else { panic!() };
        starts_with(&output, value, &plain);
    };
    at_each_room(6, |room| decode(&code, room), check);
}

#[test]
fn lists_of_places() {
    // In a field of zeros the zero pattern hits everywhere, and the pattern (1) nowhere.
    for (pattern, places) in [(0, vec![0, 1, 2, 3]), (1, vec![])] {
        let check = |after| {
            let Call::Search { list, value, .. } = after else { panic!() };
            lists(&list, value, &places);
        };
        at_each_room(4, |room| search(&[0; 8], &[pattern, 0], room), check);
        at_each_room(
            1,
            |room| search(&[0; 8], &[0, 0, 0, 0, 0, 0, pattern, 0], room),
            |after| {
                assert_eq!(after.value(), u64::from(pattern == 0));
            },
        );
    }
}

#[test]
fn lists_of_pages() {
    for (table, pages) in [(BUCKET, vec![]), ([1, 0, 2, 0, 4, 0], vec![1]), ([9; 6], vec![0, 1])] {
        let check = |after| {
            let Call::Store { image, list, value, .. } = after else { panic!() };
            lists(&list, value, &pages);
            assert_eq!(image, table);
        };
        at_each_room(2, |room| store(&table, &BUCKET, &ITS_MAP, room), check);
    }
}
