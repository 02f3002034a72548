//! Why a call is turned down: the library's one table of refusals.

use crate::Bytes;
use cotelark_sys::*;
use std::error::Error;
use std::fmt;

/// Why a call was turned down: the lowest of the table's numbers that applies. Nothing that was lent has changed.
///
/// ```
/// use cotelark::{sign, Refusal};
///
/// let refusal = sign(5, b"a page").unwrap_err();
/// assert_eq!(refusal, Refusal::Size);
/// assert_eq!((refusal.number(), refusal.name(), refusal.value()), (1, "SIZE", 0));
/// assert_eq!(refusal.to_string(), "SIZE (1), value 0: n is not from 1 to 4");
/// ```
#[derive(Clone, Copy, Debug, PartialEq, Eq, Hash)]
#[non_exhaustive]
pub enum Refusal {
    /// 1: n is not from 1 to 4.
    Size,
    /// 2: the bytes of a page are odd, below 2 or above 65,536.
    Page,
    /// 3: an object is above 65,534 symbols, a bucket above 16,777,216 bytes or 4,096 pages, or a caption field above 32,768 symbols.
    Long,
    /// 4: there is an odd number of bytes where whole symbols are due.
    Odd,
    /// 5: the map breaks a rule.
    Map {
        /// Where the field that breaks it stands in the map, or the first byte left over.
        place: Bytes,
    },
    /// 6: two lengths, or two n, that belong together differ.
    Match,
    /// 7: an output is too short.
    Room {
        /// The length needed: in bytes, or in numbers for a list.
        needed: usize,
    },
    /// 8: the pattern has no symbol.
    Empty,
    /// 9: the page number, or the place, is not allowed.
    PageNo,
    /// 10: a page asked for has another signature in the image than in its entry.
    Damaged {
        /// The lowest such page.
        page: usize,
    },
    /// 14: n = 1, and one component does not tell which symbol is damaged.
    Thin,
}

impl Refusal {
    /// The number in the table.
    pub fn number(&self) -> u32 {
        self.row().0
    }

    /// The name in the table.
    pub fn name(&self) -> &'static str {
        self.row().1
    }

    /// The value beside the number; 0 where the table names none.
    pub fn value(&self) -> usize {
        match *self {
            Refusal::Map { place: Bytes(value) } | Refusal::Room { needed: value } | Refusal::Damaged { page: value } => value,
            _ => 0,
        }
    }

    /// The table's number and name.
    fn row(&self) -> (u32, &'static str) {
        match self {
            Refusal::Size => (COTELARK_SIZE, "SIZE"),
            Refusal::Page => (COTELARK_PAGE, "PAGE"),
            Refusal::Long => (COTELARK_LONG, "LONG"),
            Refusal::Odd => (COTELARK_ODD, "ODD"),
            Refusal::Map { .. } => (COTELARK_MAP, "MAP"),
            Refusal::Match => (COTELARK_MATCH, "MATCH"),
            Refusal::Room { .. } => (COTELARK_ROOM, "ROOM"),
            Refusal::Empty => (COTELARK_EMPTY, "EMPTY"),
            Refusal::PageNo => (COTELARK_PAGENO, "PAGENO"),
            Refusal::Damaged { .. } => (COTELARK_DAMAGED, "DAMAGED"),
            Refusal::Thin => (COTELARK_THIN, "THIN"),
        }
    }

    /// The refusal of a status other than 0 and the value beside it.
    fn of(status: u32, value: usize) -> Refusal {
        match status {
            COTELARK_SIZE => Refusal::Size,
            COTELARK_PAGE => Refusal::Page,
            COTELARK_LONG => Refusal::Long,
            COTELARK_ODD => Refusal::Odd,
            COTELARK_MAP => Refusal::Map { place: Bytes(value) },
            COTELARK_MATCH => Refusal::Match,
            COTELARK_ROOM => Refusal::Room { needed: value },
            COTELARK_EMPTY => Refusal::Empty,
            COTELARK_PAGENO => Refusal::PageNo,
            COTELARK_DAMAGED => Refusal::Damaged { page: value },
            COTELARK_THIN => Refusal::Thin,
            _ => unknown(status),
        }
    }
}

impl fmt::Display for Refusal {
    fn fmt(&self, out: &mut fmt::Formatter<'_>) -> fmt::Result {
        write!(out, "{} ({}), value {}: ", self.name(), self.number(), self.value())?;
        match self {
            Refusal::Size => write!(out, "n is not from 1 to 4"),
            Refusal::Page => write!(out, "the bytes of a page are not an even number from 2 to 65,536"),
            Refusal::Long => write!(out, "an object, a bucket, its page count or a caption field is above its limit"),
            Refusal::Odd => write!(out, "there is an odd number of bytes where whole symbols are due"),
            Refusal::Map { place } => write!(out, "the map breaks a rule at byte {}", place.0),
            Refusal::Match => write!(out, "two lengths, or two n, that belong together differ"),
            Refusal::Room { needed } => write!(out, "an output is shorter than the {needed} that are needed"),
            Refusal::Empty => write!(out, "the pattern has no symbol"),
            Refusal::PageNo => write!(out, "there is no page of this number"),
            Refusal::Damaged { page } => write!(out, "page {page} does not have the signature of its entry"),
            Refusal::Thin => write!(out, "n = 1 does not tell which symbol of a page is damaged"),
        }
    }
}

impl Error for Refusal {}

/// The value that a call told, if its status is 0.
pub(crate) fn told(status: u32, value: usize) -> Result<usize, Refusal> {
    if status == 0 {
        Ok(value)
    } else {
        Err(Refusal::of(status, value))
    }
}

/// An archive of another version than the header that this was written for.
pub(crate) fn unknown(answer: u32) -> ! {
    panic!("the archive answers {answer}, which the header does not name")
}
