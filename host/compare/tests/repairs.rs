//! Repairs, by both programs and against the page that was there before the damage: every position of small pages, every value of a damaged symbol,
//! every position that an entry can name, and pairs of damaged symbols. Nothing but the page asked for ever changes.

use compare::call::Call;
use compare::dice::Dice;
use compare::done;
use compare::handed::{load_page, repair_page};
use compare::library::{BEYOND, REPAIRED, WHOLE};
use compare::run::true_map;

const SIZES: [u64; 3] = [2, 3, 4];
const BYTES: [u8; 30] = *b"\x31\x41\x59\x26\x53\x58\x97\x93\x23\x84\x62\x64\x33\x83\x27\x95\0\0\x02\x88\x41\x97\x16\x93\x99\x37\x51\x05\xFF\xFF";

/// What a repair that is not refused tells: the answer, the symbol's position, its old and new value, and the mark.
type Told = (u32, u64, u16, u16, u32);

/// What is told where no symbol was changed.
const TOLD_WHOLE: Told = (WHOLE, 0, 0, 0, 0);
const TOLD_BEYOND: Told = (BEYOND, 0, 0, 0, 0);

/// What both programs tell of a repair, and the image that they leave.
fn repair(image: &[u8], map: &[u8], page: usize) -> (Told, Vec<u8>) {
    let after = done(&repair_page(image, map, page as u64));
    let Call::RepairPage { image, answer, position, old_symbol, new_symbol, marked, value: 0, .. } = after else { panic!("{after}") };
    ((answer, position, old_symbol, new_symbol, marked), image)
}

/// A bucket and its map.
struct Backup {
    n: u64,
    page_bytes: usize,
    bucket: Vec<u8>,
    map: Vec<u8>,
}

impl Backup {
    fn new(n: u64, page_bytes: usize, bucket: &[u8]) -> Backup {
        Backup { n, page_bytes, bucket: bucket.to_vec(), map: true_map(n, page_bytes as u64, bucket) }
    }

    /// A page of zeros as its whole bucket.
    fn of_zeros(n: u64, bytes: usize) -> Backup {
        Backup::new(n, bytes.next_multiple_of(2), &vec![0; bytes])
    }

    /// The bucket with changes added to symbols of a page, given by their positions, as far as those have bytes.
    fn damaged(&self, page: usize, changes: &[(usize, u16)]) -> Vec<u8> {
        let mut image = self.bucket.clone();
        let page = image.chunks_mut(self.page_bytes).nth(page).expect("a page of the bucket");
        for &(position, change) in changes {
            page[2 * position..].iter_mut().zip(change.to_le_bytes()).for_each(|(byte, change)| *byte ^= change);
        }
        image
    }

    /// The map with these components in the first page's entry.
    fn with_entry(&self, component: impl Fn(u64) -> u16) -> Vec<u8> {
        let mut map = self.map.clone();
        (1..=self.n).zip(map[21..].chunks_mut(2)).for_each(|(j, bytes)| bytes.copy_from_slice(&component(j).to_le_bytes()));
        map
    }

    fn told_repaired(&self, position: usize, old: u16, new: u16) -> Told {
        (REPAIRED, position as u64, old, new, u32::from(self.n == 2))
    }

    /// One damaged symbol is restored.
    fn restores(&self, page: usize, position: usize, change: u16) {
        let bytes = self.bucket.chunks(self.page_bytes).nth(page).expect("a page of the bucket");
        let symbol = u16::from_le_bytes([bytes[2 * position], *bytes.get(2 * position + 1).unwrap_or(&0)]);
        let (told, image) = repair(&self.damaged(page, &[(position, change)]), &self.map, page);
        assert_eq!(told, self.told_repaired(position, symbol ^ change, symbol));
        assert!(image == self.bucket);
    }

    /// Two damaged symbols are beyond repair, and stay.
    fn leaves(&self, page: usize, changes: [(usize, u16); 2]) {
        let damaged = self.damaged(page, &changes);
        assert_eq!(repair(&damaged, &self.map, page), (TOLD_BEYOND, damaged));
    }
}

/// Changes of a symbol that has so many bytes.
fn some_changes(bytes: usize) -> &'static [u16] {
    if bytes == 1 {
        &[1, 0x27, 0x80, 0xFF]
    } else {
        &[1, 0x27, 0x80, 0xFF, 0x100, 0x101, 0x8000, 0xFF00, 0xFFFF]
    }
}

#[test]
fn every_position_of_small_pages() {
    for n in SIZES {
        for length in 1..=9usize {
            for page_bytes in [length.next_multiple_of(2), 10] {
                // Two full pages, and a last one of this length.
                let backup = Backup::new(n, page_bytes, &BYTES[..2 * page_bytes + length]);
                for (page, bytes) in [page_bytes, page_bytes, length].into_iter().enumerate() {
                    assert_eq!(repair(&backup.bucket, &backup.map, page), (TOLD_WHOLE, backup.bucket.clone()));
                    for position in 0..bytes.div_ceil(2) {
                        some_changes(bytes - 2 * position).iter().for_each(|&change| backup.restores(page, position, change));
                    }
                }
            }
        }
    }
}

#[test]
fn every_value_of_a_damaged_symbol() {
    for n in SIZES {
        // The second page is odd: its last symbol has one byte.
        let (backup, zeros) = (Backup::new(n, 8, &BYTES[..8 + 5]), Backup::of_zeros(n, 6));
        for change in 1..=u16::MAX {
            backup.restores(0, 3, change);
            backup.restores(1, 0, change);
            zeros.restores(0, 1, change);
        }
        (1..=255).for_each(|change| backup.restores(1, 2, change));
    }
}

#[test]
fn the_longest_pages() {
    let bucket = Dice::new(4).any_bytes(2 * 65_536 + 65_535);
    for n in SIZES {
        let backup = Backup::new(n, 65_536, &bucket);
        for position in [0, 1, 255, 16_384, 32_766, 32_767] {
            backup.restores(1, position, 0x8001);
            backup.restores(2, position, 0x81);
        }
        if n > 2 {
            backup.leaves(1, [(0, 1), (32_767, 1)]);
            backup.leaves(2, [(32_766, 0xFF00), (32_767, 8)]);
        }
    }
}

#[test]
fn a_repaired_page_is_whole_and_loads_beside_damaged_ones() {
    for n in SIZES {
        let backup = Backup::new(n, 4, &BYTES[..11]);
        // A symbol of the first page, and one of the short last page.
        let mut damaged = backup.damaged(0, &[(1, 0x1234)]);
        damaged[8] ^= 0x41;
        for (page, bytes, other) in [(0, 0..4, 2), (2, 8..11, 0)] {
            let ((answer, ..), image) = repair(&damaged, &backup.map, page);
            assert_eq!((answer, &image[bytes.clone()]), (REPAIRED, &backup.bucket[bytes.clone()]));
            assert_eq!((&image[..bytes.start], &image[bytes.end..]), (&damaged[..bytes.start], &damaged[bytes.end..]));
            assert_eq!(repair(&image, &backup.map, page), (TOLD_WHOLE, image.clone()));
            assert_eq!(repair(&image, &backup.map, 1), (TOLD_WHOLE, image.clone()));
            let Call::LoadPage { start, bytes: loaded, .. } = done(&load_page(&image, &backup.map, page as u64)) else { panic!() };
            assert_eq!(start as usize..(start + loaded) as usize, bytes);
            assert_eq!(repair(&image, &backup.map, other).1, backup.bucket);
        }
    }
}

#[test]
fn every_position_that_an_entry_can_name() {
    // The entry of a page of zeros is that of a 1 at position i. The page has three symbols, and another page follows.
    for n in SIZES {
        let backup = Backup::new(n, 6, &[0; 12]);
        for i in 0..second::ORDER {
            let (told, image) = repair(&backup.bucket, &backup.with_entry(|j| second::power(i * j)), 0);
            let fits = i < 3;
            assert_eq!(told, if fits { backup.told_repaired(i as usize, 0, 1) } else { TOLD_BEYOND });
            assert_eq!(image, if fits { backup.damaged(0, &[(i as usize, 1)]) } else { vec![0; 12] });
        }
    }
}

#[test]
fn every_value_that_an_entry_asks_for_at_the_end_of_an_odd_page() {
    // The entry is that of another last symbol; what needs its high byte is beyond.
    for n in SIZES {
        let backup = Backup::new(n, 4, &BYTES[4..7]);
        for value in 0..=u16::MAX {
            let ([low, high], old) = (value.to_le_bytes(), BYTES[6]);
            let due = second::sign(n, &[BYTES[4], BYTES[5], low, high]).expect("allowed sizes").components;
            let (told, image) = repair(&backup.bucket, &backup.with_entry(|j| due[j as usize - 1]), 0);
            let (told_due, last_due) = match (low, high) {
                (_, 1..) => (TOLD_BEYOND, old),
                _ if low == old => (TOLD_WHOLE, old),
                _ => (backup.told_repaired(1, u16::from(old), value), low),
            };
            assert_eq!((told, image), (told_due, vec![BYTES[4], BYTES[5], last_due]));
        }
    }
}

#[test]
fn a_third_or_fourth_component_that_does_not_fit() {
    // The entry of a page of zeros is that of a 1 at position i, but for one component.
    for (n, wrong) in [(3, 3), (4, 3), (4, 4)] {
        let backup = Backup::of_zeros(n, 8);
        for i in 0..4 {
            for change in (0..16).map(|bit| 1 << bit).chain([second::power(i * wrong), 0xFFFF]) {
                let map = backup.with_entry(|j| second::power(i * j) ^ if j == wrong { change } else { 0 });
                assert_eq!(repair(&backup.bucket, &map, 0), (TOLD_BEYOND, vec![0; 8]));
            }
        }
    }
}

#[test]
fn differences_of_which_some_are_zero() {
    for n in SIZES {
        let backup = Backup::of_zeros(n, 8);
        for zeros in 1..(1 << n) - 1 {
            for value in [1, 2, 0x100, 0x8000, 0xFFFF] {
                let map = backup.with_entry(|j| if zeros >> (j - 1) & 1 == 1 { 0 } else { value });
                assert_eq!(repair(&backup.bucket, &map, 0), (TOLD_BEYOND, vec![0; 8]));
            }
        }
    }
}

#[test]
fn two_damaged_symbols_are_beyond_with_n_of_3_and_4() {
    for n in [3, 4] {
        let backup = Backup::new(n, 10, &BYTES[..10 + 9]);
        for (one, other) in (0..5).flat_map(|one| (one + 1..5).map(move |other| (one, other))) {
            for &change in some_changes(2) {
                some_changes(2).iter().for_each(|&beside| backup.leaves(0, [(one, change), (other, beside)]));
                some_changes(9 - 2 * other).iter().for_each(|&beside| backup.leaves(1, [(one, change), (other, beside)]));
            }
        }
        (1..=u16::MAX).for_each(|change| backup.leaves(0, [(1, 0x27), (3, change)]));
        (1..=u16::MAX).for_each(|change| backup.leaves(1, [(1, change), (4, 0x27)]));
    }
}

#[test]
fn with_n_2_two_damaged_symbols_are_taken_for_one_at_each_third_position_once() {
    // Three symbols at given positions have the signature of zeros in one proportion only: for each third position one change beside the first one.
    for symbols in 2..=5 {
        let backup = Backup::new(2, 2 * symbols, &BYTES[..6 * symbols]);
        let mut taken = Vec::new();
        for change in 1..=u16::MAX {
            let damaged = backup.damaged(1, &[(0, 0x31), (1, change)]);
            let (told, image) = repair(&damaged, &backup.map, 1);
            if told == TOLD_BEYOND {
                assert_eq!(image, damaged);
                continue;
            }
            let (answer, position, old, new, marked) = told;
            assert_eq!((answer, marked), (REPAIRED, 1));
            assert_eq!(image, backup.damaged(1, &[(0, 0x31), (1, change), (position as usize, old ^ new)]));
            done(&load_page(&image, &backup.map, 1));
            taken.push(position as usize);
        }
        taken.sort();
        assert_eq!(taken, (2..symbols).collect::<Vec<usize>>());
    }
}

#[test]
fn over_three_zeros_8_6_0_becomes_8_6_1() {
    for n in SIZES {
        let backup = Backup::of_zeros(n, 6);
        let (damaged, taken) = (vec![8, 0, 6, 0, 0, 0], vec![8, 0, 6, 0, 1, 0]);
        let due = if n == 2 { ((REPAIRED, 2, 0, 1, 1), taken) } else { (TOLD_BEYOND, damaged.clone()) };
        assert_eq!(repair(&damaged, &backup.map, 0), due);
    }
    // In an odd page the third symbol takes a 1, but not the 100 that 800, 600, 0 would need.
    let odd = Backup::of_zeros(2, 5);
    assert_eq!(repair(&[8, 0, 6, 0, 0], &odd.map, 0), ((REPAIRED, 2, 0, 1, 1), vec![8, 0, 6, 0, 1]));
    assert_eq!(repair(&[0, 8, 0, 6, 0], &odd.map, 0), (TOLD_BEYOND, vec![0, 8, 0, 6, 0]));
}
