//! The edges of the scope's sizes, and everything empty, with the answers that the scope names.

use compare::call::Call;
use compare::dice::Dice;
use compare::handed::*;
use compare::library::{EMPTY, FINISHED, KEPT, LONG, MAP, MATCH, ODD, PAGE, PAGENO, REPAIRED, ROOM, WHOLE, WRITTEN};
use compare::run::true_map;
use compare::{both, done, refused};

const SIZES: [u64; 4] = [1, 2, 3, 4];
const MIB_16: usize = 16_777_216;

fn any_bytes(length: usize) -> Vec<u8> {
    Dice::new(length as u64).any_bytes(length)
}

#[test]
fn objects() {
    let object = any_bytes(131_069);
    for n in SIZES {
        for length in [0, 1, 2, 3, 131_066, 131_067, 131_068] {
            done(&sign(n, &object[..length]));
        }
        refused(&sign(n, &object), LONG, 0);
    }
}

#[test]
fn joins() {
    for n in SIZES {
        let join = |a, b| join((n, [1, 2, 3, 4], a), (n, [0x8000, 5, 0xFFFF, 7], b));
        for (a, b) in [(0, 0), (65_534, 0), (0, 65_534), (32_767, 32_767), (65_533, 1), (1, 65_533)] {
            done(&join(a, b));
        }
        let max = u64::MAX;
        for (a, b) in [(65_535, 0), (0, 65_535), (65_534, 1), (1, 65_534), (max, 0), (0, max), (max, 1), (max, max)] {
            refused(&join(a, b), LONG, 0);
        }
    }
}

#[test]
fn edits() {
    let (old, new) = (any_bytes(131_070), any_bytes(200_001));
    for n in SIZES {
        let edit = |at, old: &[u8], new: &[u8]| edit(n, [1, 2, 3, 4], at, old, new);
        let untouched = [1, 2, 3, 4].map(|component| if u64::from(component) <= n { component } else { 0 });
        for at in [0, 1, 65_534] {
            let Call::Edit { edited, .. } = done(&edit(at, &[], &[])) else { panic!() };
            assert_eq!(edited, untouched);
        }
        for (at, bytes) in [(65_533, 2), (0, 131_068), (65_000, 1_068), (1, 131_066)] {
            done(&edit(at, &old[..bytes], &new[..bytes]));
        }
        let passed = [(65_535, 0), (65_534, 2), (0, 131_070), (1, 131_068), (u64::MAX, 0), (u64::MAX, 2)];
        for (at, bytes) in passed.into_iter().chain([(65_534, 1), (0, 131_069)]) {
            refused(&edit(at, &old[..bytes], &new[..bytes]), LONG, 0);
        }
        refused(&edit(0, &old[..2], &new[..200_000]), MATCH, 0);
        refused(&edit(0, &old[..2], &new), ODD, 0);
    }
}

/// Makes a bucket's map with each n, in the bytes that the scope reckons, and stores and loads the bucket by the last of them.
fn make_and_use(page_bytes: u64, bucket: &[u8]) {
    let pages = bucket.len().div_ceil(page_bytes as usize);
    for n in SIZES {
        let bytes = 18 + pages * (3 + 2 * n as usize);
        let Call::MakeMap { output, value, .. } = done(&make_map(n, page_bytes, bucket, bytes)) else { panic!() };
        assert_eq!(value as usize, bytes);
        let Call::ReadMap { bucket_bytes, pages: read, .. } = done(&read_map(&output)) else { panic!() };
        assert_eq!((bucket_bytes as usize, read as usize), (bucket.len(), pages));
    }
    use_backup(page_bytes, bucket, pages as u64);
}

/// A store of one changed byte in the last page, the last steps, loads, and repairs of that byte.
fn use_backup(page_bytes: u64, bucket: &[u8], pages: u64) {
    let map = true_map(2, page_bytes, bucket);
    let mut table = bucket.to_vec();
    *table.last_mut().expect("no empty bucket") ^= 0x40;
    let Call::Store { list, value: 1, .. } = done(&store(&table, bucket, &map, pages as usize)) else { panic!() };
    assert_eq!(list[0], pages - 1);
    for (place, told, page) in [(pages - 1, WRITTEN, pages - 1), (pages, FINISHED, 0)] {
        let Call::Step { answer, value, .. } = done(&step(place, &table, bucket, &map)) else { panic!() };
        assert_eq!((answer, value), (told, page));
    }
    refused(&step(pages + 1, &table, bucket, &map), PAGENO, 0);
    let Call::LoadPage { start, bytes, .. } = done(&load_page(bucket, &map, pages - 1)) else { panic!() };
    assert_eq!((start, start + bytes), ((pages - 1) * page_bytes, bucket.len() as u64));
    refused(&load_page(bucket, &map, pages), PAGENO, 0);
    assert_eq!(done(&load_bucket(bucket, &map, &table)).value(), bucket.len() as u64);
    let Call::RepairPage { image, answer: REPAIRED, .. } = done(&repair_page(&table, &map, pages - 1)) else { panic!() };
    assert!(image == bucket);
    let Call::RepairPage { answer: WHOLE, .. } = done(&repair_page(&image, &map, pages - 1)) else { panic!() };
    refused(&repair_page(&table, &map, pages), PAGENO, 0);
}

#[test]
fn buckets_up_to_4096_pages() {
    let bucket = any_bytes(24_581);
    for page in [2, 4, 6] {
        let limit = page as usize * 4_096;
        for length in [limit - 1, limit] {
            make_and_use(page, &bucket[..length]);
        }
        refused(&make_map(2, page, &bucket[..limit + 1], 50_000), LONG, 0);
    }
}

#[test]
fn buckets_up_to_16_mib() {
    let bucket = any_bytes(MIB_16 + 1);
    make_and_use(65_536, &bucket[..MIB_16]);
    done(&make_map(4, 4_096, &bucket[..MIB_16], 45_074));
    for page in [4_094, 4_096, 65_536] {
        refused(&make_map(2, page, &bucket, 50_000), LONG, 0);
    }
    refused(&make_map(2, 4_094, &bucket[..MIB_16], 50_000), LONG, 0);
}

#[test]
fn pages() {
    let bucket = any_bytes(131_077);
    for page in [0, 1, 3, 65_535, 65_537, 65_538, 1 << 32 | 2, u64::MAX] {
        refused(&make_map(2, page, &bucket[..2], 100), PAGE, 0);
        refused(&make_map(2, page, &[], 100), PAGE, 0);
    }
    for (page, length) in [(2, 1), (2, 2), (2, 3), (4, 5), (4, 7), (65_534, 65_537), (65_536, 65_535), (65_536, 131_077)] {
        make_and_use(page, &bucket[..length]);
    }
}

#[test]
fn everything_empty() {
    for n in SIZES {
        let Call::Sign { signature, .. } = done(&sign(n, &[])) else { panic!() };
        assert_eq!(signature, [0; 4]);
        let map = true_map(n, 65_536, &[]);
        let Call::MakeMap { output, value: 18, .. } = done(&make_map(n, 65_536, &[], 18)) else { panic!() };
        assert_eq!(output, map);
        let Call::ReadMap { bucket_bytes: 0, pages: 0, .. } = done(&read_map(&map)) else { panic!() };
        assert_eq!(done(&store(&[], &[], &map, 0)).value(), 0);
        let Call::Step { place: 0, answer: FINISHED, value: 0, .. } = done(&step(0, &[], &[], &map)) else { panic!() };
        refused(&step(1, &[], &[], &map), PAGENO, 0);
        refused(&load_page(&[], &map, 0), PAGENO, 0);
        refused(&ask_page(&[], &map, 0), PAGENO, 0);
        refused(&repair_page(&[], &map, 0), PAGENO, 0);
        assert_eq!(done(&load_bucket(&[], &map, &[])).value(), 0);
        refused(&store(&[1], &[], &map, 0), MATCH, 0);
    }
    let without_map = [read_map(&[]), store(&[], &[], &[], 0), step(0, &[], &[], &[]), load_page(&[], &[], 0), ask_page(&[], &[], 0)];
    for call in without_map.iter().chain([&load_bucket(&[], &[], &[]), &repair_page(&[], &[], 0)]) {
        refused(call, MAP, 0);
    }
    for call in [encode(&[], 0), decode(&[], 0), search(&[], &[0, 0], 0)] {
        assert_eq!(done(&call).value(), 0);
    }
    refused(&search(&[], &[], 0), EMPTY, 0);
}

#[test]
fn a_field_comes_back_and_steps_are_answered() {
    let plain = any_bytes(65_536);
    let Call::Encode { output, .. } = done(&encode(&plain, 65_536)) else { panic!() };
    let Call::Decode { output, .. } = done(&decode(&output, 65_536)) else { panic!() };
    assert!(output == plain);
    let map = true_map(1, 2, &plain[..4]);
    let Call::Step { place: 1, answer: KEPT, value: 0, .. } = done(&step(0, &plain[..4], &[0; 4], &map)) else { panic!() };
}

#[test]
fn caption_fields() {
    let field = any_bytes(65_538);
    for (length, status) in [(65_534, 0), (65_535, ODD), (65_536, 0), (65_537, LONG), (65_538, LONG)] {
        let field = &field[..length];
        for call in [encode(field, 65_538), decode(field, 65_538), search(field, &[0, 0], 40_000)] {
            let outcome = both(&call);
            assert_eq!((outcome.status, outcome.after.value() == 0), (status, status != 0), "{}", call.operation());
        }
    }
}

#[test]
fn patterns() {
    let pattern = any_bytes(200_001);
    for length in [2, 100, 65_536] {
        let field = &pattern[..length];
        let Call::Encode { output: code, .. } = done(&encode(field, length)) else { panic!() };
        let Call::Search { list, value: 1, .. } = done(&search(&code, field, 1)) else { panic!() };
        assert_eq!(list, [0]);
        for longer in [length + 2, 131_068, 131_070, 200_000] {
            assert_eq!(done(&search(&code, &pattern[..longer], 0)).value(), 0);
        }
        refused(&search(&code, &pattern, 0), ODD, 0);
        refused(&search(&code, &[], 0), EMPTY, 0);
    }
}

#[test]
fn patterns_that_hit_everywhere() {
    // Zeros are at each place of a field of zeros, and ones at each place of a field of ones.
    let Call::Encode { output: code, .. } = done(&encode(&[1, 0].repeat(32_768), 65_536)) else { panic!() };
    for (code, pattern) in [(&vec![0; 65_536], [0, 0]), (&code, [1, 0])] {
        for l in [1, 2, 1_000, 32_767, 32_768] {
            let places = 32_768 - l + 1;
            let Call::Search { list, value, .. } = done(&search(code, &pattern.repeat(l), places)) else { panic!() };
            assert_eq!(value, places as u64);
            assert!(list.into_iter().eq(0..places as u64));
        }
    }
}

#[test]
fn the_largest_map() {
    let bucket = any_bytes(8_192);
    let mut map = true_map(4, 2, &bucket);
    assert_eq!(map.len(), 45_074);
    let Call::ReadMap { n: 4, pages: 4_096, .. } = done(&read_map(&map)) else { panic!() };
    // The first line has 34 bytes, a page's line 21 and the digits of its number.
    let bytes = 34 + 4_096 * 21 + 10 + 90 * 2 + 900 * 3 + 3_096 * 4;
    refused(&list_map(&map, bytes - 1), ROOM, bytes as u64);
    let Call::ListMap { output, value, .. } = done(&list_map(&map, bytes)) else { panic!() };
    assert_eq!(value, bytes as u64);
    assert!(output.starts_with(b"n 4 page 2 bucket 8192 pages 4096\n0 ") && output.ends_with(b"\n"));
    for more in [1, 1_000_000] {
        map.resize(45_074 + more, 4);
        refused(&read_map(&map), MAP, 45_074);
        let Call::ListMap { output, .. } = done(&list_map(&map, 21)) else { panic!() };
        assert_eq!(output, b"map refused at 45074\n");
    }
}

#[test]
fn sizes_in_a_map() {
    let header = |n: u8, page: u32, bucket: u32| {
        let ([p0, p1, p2, p3], [b0, b1, b2, b3]) = (page.to_le_bytes(), bucket.to_le_bytes());
        read_map(&[1, 1, 0, n, 2, 4, 0, p0, p1, p2, p3, 3, 4, 0, b0, b1, b2, b3])
    };
    for n in [0, 5, 255] {
        refused(&header(n, 2, 0), MAP, 0);
    }
    for page in [0, 1, 3, 65_535, 65_537, 65_538, 0x8000_0000, u32::MAX] {
        refused(&header(1, page, 0), MAP, 4);
    }
    for (page, bucket) in [(2, 8_193), (65_536, 16_777_217), (4_094, 16_777_216), (2, u32::MAX), (65_536, u32::MAX)] {
        refused(&header(1, page, bucket), MAP, 11);
    }
    // Allowed sizes: nothing is missing, or the first entry.
    for (page, bucket) in [(2, 1), (2, 8_192), (65_536, 16_777_216), (4_096, 16_777_216)] {
        done(&header(4, page, 0));
        refused(&header(4, page, bucket), MAP, 18);
    }
}
