//! Calls with chosen inputs, and with junk in everything that a call may write, so that what is left shows.

use crate::call::Call;

/// What stands in a signature before it is written.
pub const JUNK: [u16; 4] = [0xDEAD, 0xBEEF, 0x0BAD, 0xF00D];
/// What stands in each byte of an output before it is written.
pub const JUNK_BYTE: u8 = 0xEE;
/// What stands in each number of a list, and in each number told, before it is written.
pub const JUNK_NUMBER: u64 = 0xDEAD_BEEF_0BAD_F00D;
/// What stands in an answer, and in the mark of a repair, before it is written.
pub const JUNK_ANSWER: u32 = 0x0BAD_F00D;

pub fn sign(n: u64, object: &[u8]) -> Call {
    Call::Sign { n, object: object.to_vec(), signature: JUNK }
}

/// A join of two signatures, each as n, components and the symbols of its part.
pub fn join((first_n, first, first_symbols): Part, (second_n, second, second_symbols): Part) -> Call {
    Call::Join { first_n, first, first_symbols, second_n, second, second_symbols, joined: JUNK }
}
type Part = (u64, [u16; 4], u64);

pub fn edit(n: u64, signature: [u16; 4], at_symbol: u64, old: &[u8], new: &[u8]) -> Call {
    Call::Edit { n, signature, at_symbol, old_piece: old.to_vec(), new_piece: new.to_vec(), edited: JUNK }
}

pub fn make_map(n: u64, page_bytes: u64, bucket: &[u8], room: usize) -> Call {
    Call::MakeMap { n, page_bytes, bucket: bucket.to_vec(), output: vec![JUNK_BYTE; room], value: JUNK_NUMBER }
}

pub fn read_map(map: &[u8]) -> Call {
    let [n, page_bytes, bucket_bytes, pages, value] = [JUNK_NUMBER; 5];
    Call::ReadMap { map: map.to_vec(), n, page_bytes, bucket_bytes, pages, value }
}

pub fn list_map(map: &[u8], room: usize) -> Call {
    Call::ListMap { map: map.to_vec(), output: vec![JUNK_BYTE; room], value: JUNK_NUMBER }
}

pub fn store(table: &[u8], image: &[u8], map: &[u8], room: usize) -> Call {
    let (table, image, map) = (table.to_vec(), image.to_vec(), map.to_vec());
    Call::Store { table, image, map, list: vec![JUNK_NUMBER; room], value: JUNK_NUMBER }
}

pub fn step(place: u64, table: &[u8], image: &[u8], map: &[u8]) -> Call {
    let (table, image, map) = (table.to_vec(), image.to_vec(), map.to_vec());
    Call::Step { place, table, image, map, answer: JUNK_ANSWER, value: JUNK_NUMBER }
}

pub fn load_page(image: &[u8], map: &[u8], page: u64) -> Call {
    let [start, bytes, value] = [JUNK_NUMBER; 3];
    Call::LoadPage { image: image.to_vec(), map: map.to_vec(), page, start, bytes, value }
}

pub fn ask_page(image: &[u8], map: &[u8], page: u64) -> Call {
    Call::AskPage { image: image.to_vec(), map: map.to_vec(), page, value: JUNK_NUMBER }
}

pub fn load_bucket(image: &[u8], map: &[u8], table: &[u8]) -> Call {
    Call::LoadBucket { image: image.to_vec(), map: map.to_vec(), table: table.to_vec(), value: JUNK_NUMBER }
}

pub fn repair_page(image: &[u8], map: &[u8], page: u64) -> Call {
    let [answer, marked] = [JUNK_ANSWER; 2];
    let [position, value] = [JUNK_NUMBER; 2];
    let [old_symbol, new_symbol, ..] = JUNK;
    Call::RepairPage { image: image.to_vec(), map: map.to_vec(), page, answer, position, old_symbol, new_symbol, marked, value }
}

pub fn encode(plain: &[u8], room: usize) -> Call {
    Call::Encode { plain: plain.to_vec(), output: vec![JUNK_BYTE; room], value: JUNK_NUMBER }
}

pub fn decode(code: &[u8], room: usize) -> Call {
    Call::Decode { code: code.to_vec(), output: vec![JUNK_BYTE; room], value: JUNK_NUMBER }
}

pub fn search(code: &[u8], pattern: &[u8], room: usize) -> Call {
    Call::Search { code: code.to_vec(), pattern: pattern.to_vec(), list: vec![JUNK_NUMBER; room], value: JUNK_NUMBER }
}
