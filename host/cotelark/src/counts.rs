//! Counts of bytes and of symbols, which nothing here takes for one another.

use std::fmt;

/// A count of bytes.
///
/// ```
/// use cotelark::{Bytes, Symbols};
///
/// assert_eq!(Bytes(5).symbols(), Symbols(3)); // an odd byte counts as a whole symbol
/// assert_eq!([Bytes(0), Bytes(1), Bytes(5)].map(|count| count.to_string()), ["0 bytes", "1 byte", "5 bytes"]);
/// ```
#[derive(Clone, Copy, Debug, Default, PartialEq, Eq, PartialOrd, Ord, Hash)]
pub struct Bytes(pub usize);

/// A count of symbols, of two bytes each; or the position of one, from 0.
///
/// ```
/// use cotelark::{Bytes, Symbols};
///
/// assert_eq!(Symbols(3).bytes(), Some(Bytes(6)));
/// assert_eq!(Symbols(usize::MAX).bytes(), None);
/// assert_eq!(Symbols(1).to_string(), "1 symbol");
/// ```
#[derive(Clone, Copy, Debug, Default, PartialEq, Eq, PartialOrd, Ord, Hash)]
#[repr(transparent)]
pub struct Symbols(pub usize);

impl Bytes {
    /// The symbols of so many bytes; an odd last byte counts as a whole one.
    pub fn symbols(self) -> Symbols {
        Symbols(self.0.div_ceil(2))
    }
}

impl Symbols {
    /// The bytes of so many whole symbols, which is also the offset of the symbol at this position; none where no `usize` counts them.
    pub fn bytes(self) -> Option<Bytes> {
        self.0.checked_mul(2).map(Bytes)
    }
}

impl fmt::Display for Bytes {
    fn fmt(&self, out: &mut fmt::Formatter<'_>) -> fmt::Result {
        write!(out, "{} byte{}", self.0, plural(self.0))
    }
}

impl fmt::Display for Symbols {
    fn fmt(&self, out: &mut fmt::Formatter<'_>) -> fmt::Result {
        write!(out, "{} symbol{}", self.0, plural(self.0))
    }
}

fn plural(count: usize) -> &'static str {
    if count == 1 {
        ""
    } else {
        "s"
    }
}
