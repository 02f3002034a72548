//! Cotelark backs a table in memory up to an image, page by page, and knows by algebraic signatures which pages changed: two pages that differ in 1 to n
//! symbols never have the same n-symbol signature. The library is written in Rattle and proved to meet its contracts for every input; this crate is its
//! interface in Rust's own types.
//!
//! - Every function takes any bytes and numbers. What it turns down is a [`Refusal`], with the number, name and value of the library's one table, and
//!   then no byte of what was lent has changed.
//! - What is written goes to slices that the caller lends, and an answer is a part of them. Nothing is kept between calls, and nothing here allocates.
//! - A symbol is two bytes, low byte first. Counts of [`Bytes`] and of [`Symbols`] are types of their own; pages and places count from 0.
//!
//! # A backup
//!
//! ```
//! use cotelark::{load_page, make_map, store, Bytes};
//!
//! # fn main() -> Result<(), cotelark::Refusal> {
//! let mut table = [0; 64 * 1024];
//! let mut image = table; // the standby's copy
//! let mut room = [0; 1024];
//! let map = make_map(4, Bytes(1024), &table, &mut room)?; // and a signature of each page of it
//!
//! table[5_000] = 1; // a flag is raised,
//! table[5_100] = 2;
//! let mut list = [0; 64];
//! let written = store(&table, &mut image, map, &mut list)?;
//! assert_eq!(written, [4]); // and page 4 is the one written
//! assert_eq!(image, table);
//! assert_eq!(load_page(&image, map, 4)?, &table[4096..5120]);
//! # Ok(())
//! # }
//! ```
//!
//! # The sizes
//!
//! | thing | allowed |
//! |---|---|
//! | n, the components of a signature | 1 to 4 |
//! | a page | an even number of bytes, 2 to 65,536; the last one of a bucket may be shorter, and odd |
//! | an object that is signed, joined or edited | at most 65,534 symbols |
//! | a bucket: the table, or its image | at most 16,777,216 bytes and 4,096 pages |
//! | a caption field | at most 32,768 symbols |

#![deny(missing_docs)]

mod backup;
mod caption;
mod counts;
mod map;
mod refusal;
mod repair;
mod signature;

pub use backup::{ask_page, load_bucket, load_page, store, Place, Step};
pub use caption::{decode, encode, search};
pub use counts::{Bytes, Symbols};
pub use map::{list_map, make_map, read_map, Sizes};
pub use refusal::Refusal;
pub use repair::{repair_page, Repair};
pub use signature::{edit, join, sign, Signature};

// What makes every call of the C interface here sound: each pointer comes from a slice, an array or a variable that lives through the call, goes with that
// slice's own length, and, where the function writes, from a mutable borrow, which overlaps nothing else that is handed over.

/// What the repository's front page says in Rust is run as it is printed there.
#[cfg(doctest)]
#[doc = include_str!("../../../README.md")]
struct FrontPage;
