//! A second program for the rules of the scope, written from the papers' side: GF(2^16) by logarithm tables.
//! It is there to be compared with the library and shares no line with it.

mod backup;
mod caption;
mod field;
mod map;
mod repair;
mod signature;

pub use backup::{ask_page, load_bucket, load_page, step, store, Step};
pub use caption::{decode, encode, search};
pub use field::{power, product, ORDER};
pub use map::{list_map, make_map, read_map, Header};
pub use repair::{repair_page, Repair};
pub use signature::{edit, join, sign, Signature};

pub const SIZE: u32 = 1;
pub const PAGE: u32 = 2;
pub const LONG: u32 = 3;
pub const ODD: u32 = 4;
pub const MAP: u32 = 5;
pub const MATCH: u32 = 6;
pub const ROOM: u32 = 7;
pub const EMPTY: u32 = 8;
pub const PAGENO: u32 = 9;
pub const DAMAGED: u32 = 10;
pub const THIN: u32 = 14;

/// Why a call is turned down: its number in the scope's table, and the value beside it.
#[derive(Clone, Copy, Debug, PartialEq, Eq)]
pub struct Refusal {
    pub number: u32,
    pub value: u64,
}

/// One test of an operation. Each operation makes its tests upward by number, so that the lowest that applies is given.
fn refuse_if(applies: bool, number: u32, value: u64) -> Result<(), Refusal> {
    (!applies).then_some(()).ok_or(Refusal { number, value })
}

/// ROOM, with the length needed, when an output of `room` bytes or numbers is shorter than that.
fn room_for(needed: u64, room: usize) -> Result<(), Refusal> {
    refuse_if((room as u64) < needed, ROOM, needed)
}

fn size_allowed(n: u64) -> bool {
    (1..=4).contains(&n)
}

fn page_allowed(page_bytes: u64) -> bool {
    (2..=65_536).contains(&page_bytes) && page_bytes % 2 == 0
}

/// Whether a bucket keeps to its sizes, once the page size is known to be allowed.
fn bucket_allowed(bucket_bytes: u64, page_bytes: u64) -> bool {
    bucket_bytes <= 16_777_216 && bucket_bytes.div_ceil(page_bytes) <= 4_096
}

/// The symbols of so many bytes; an odd byte counts as a whole one.
fn symbols_in(bytes: usize) -> u64 {
    (bytes as u64).div_ceil(2)
}
