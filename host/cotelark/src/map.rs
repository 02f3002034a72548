//! The signature map of a bucket: made, read and listed.

use crate::refusal::told;
use crate::{Bytes, Refusal};
use cotelark_sys::{cotelark_list_map, cotelark_make_map, cotelark_read_map};
use std::ops::Range;

/// What the first fields of a map say, and where pages and entries stand by them.
#[derive(Clone, Copy, Debug, PartialEq, Eq, Hash)]
#[non_exhaustive]
pub struct Sizes {
    /// The components of a signature.
    pub n: usize,
    /// The bytes of a page.
    pub page: Bytes,
    /// The bytes of the bucket.
    pub bucket: Bytes,
    /// How many pages the bucket has.
    pub pages: usize,
}

impl Sizes {
    /// Where page `k` stands in the table and in the image, if there is one of this number; the last page may be short.
    ///
    /// ```
    /// # let mut room = [0; 32];
    /// # let map = cotelark::make_map(2, cotelark::Bytes(4), &[1, 0, 2, 0, 3, 0], &mut room)?;
    /// let sizes = cotelark::read_map(map)?; // a bucket of 6 bytes, in pages of 4
    /// assert_eq!(sizes.page_range(1), Some(4..6));
    /// assert_eq!(sizes.page_range(2), None);
    /// # Ok::<(), cotelark::Refusal>(())
    /// ```
    pub fn page_range(&self, k: usize) -> Option<Range<usize>> {
        (k < self.pages).then(|| k * self.page.0..self.bucket.0.min((k + 1) * self.page.0))
    }

    /// Where the entry of page `k` stands in the map, if there is such a page: a store writes these bytes of the map and the page's of the image.
    ///
    /// ```
    /// # let mut room = [0; 32];
    /// # let map = cotelark::make_map(2, cotelark::Bytes(4), &[1, 0, 2, 0, 3, 0], &mut room)?;
    /// let sizes = cotelark::read_map(map)?;
    /// assert_eq!(sizes.entry_range(1), Some(25..32));
    /// # Ok::<(), cotelark::Refusal>(())
    /// ```
    pub fn entry_range(&self, k: usize) -> Option<Range<usize>> {
        const FIRST_ENTRY: usize = 18;
        let entry = 3 + 2 * self.n;
        (k < self.pages).then(|| FIRST_ENTRY + k * entry..FIRST_ENTRY + (k + 1) * entry)
    }
}

/// Makes the signature map of a bucket at the start of `output`, and answers it: 18 bytes, and 3 + 2n for each page.
///
/// What is answered ends where the map ends, as everything that takes a map wants it.
///
/// # Errors
///
/// [`Refusal::Size`], [`Refusal::Page`], [`Refusal::Long`], [`Refusal::Room`].
///
/// ```
/// use cotelark::{make_map, read_map, Bytes};
///
/// let mut room = [0; 100];
/// let map = make_map(2, Bytes(4), &[1, 0, 2, 0, 3, 0], &mut room)?;
/// assert_eq!(map.len(), 32);
/// assert_eq!(read_map(map)?.pages, 2);
/// # Ok::<(), cotelark::Refusal>(())
/// ```
pub fn make_map<'a>(n: usize, page: Bytes, bucket: &[u8], output: &'a mut [u8]) -> Result<&'a mut [u8], Refusal> {
    let mut value = 0;
    let status = unsafe { cotelark_make_map(n, page.0, bucket.as_ptr(), bucket.len(), output.as_mut_ptr(), output.len(), &mut value) };
    told(status, value).map(|bytes| &mut output[..bytes])
}

/// What a map's first fields say, once the whole map is found to keep its rules.
///
/// # Errors
///
/// [`Refusal::Map`].
///
/// ```
/// use cotelark::{read_map, Bytes, Refusal};
///
/// assert_eq!(read_map(&[1, 1, 0, 7]), Err(Refusal::Map { place: Bytes(0) })); // n = 7
/// ```
pub fn read_map(map: &[u8]) -> Result<Sizes, Refusal> {
    let (mut n, mut page, mut bucket, mut pages, mut value) = (0, 0, 0, 0, 0);
    let status = unsafe { cotelark_read_map(map.as_ptr(), map.len(), &mut n, &mut page, &mut bucket, &mut pages, &mut value) };
    told(status, value).map(|_| Sizes { n, page: Bytes(page), bucket: Bytes(bucket), pages })
}

/// Writes a map as text to the start of `output`, and answers it: a line with n, page bytes, bucket bytes and page count, then a line a page with its number
/// and the components in hex; of a map that breaks a rule the one line `map refused at P`.
///
/// # Errors
///
/// [`Refusal::Room`].
///
/// ```
/// use cotelark::{list_map, make_map, Bytes};
///
/// let (mut room, mut text) = ([0; 32], [0; 100]);
/// let map = make_map(2, Bytes(4), &[1, 0, 2, 0, 3, 0], &mut room)?;
/// assert_eq!(list_map(map, &mut text)?, "n 2 page 4 bucket 6 pages 2\n0 0005 0009\n1 0003 0003\n");
/// # Ok::<(), cotelark::Refusal>(())
/// ```
pub fn list_map<'a>(map: &[u8], output: &'a mut [u8]) -> Result<&'a str, Refusal> {
    let mut value = 0;
    let status = unsafe { cotelark_list_map(map.as_ptr(), map.len(), output.as_mut_ptr(), output.len(), &mut value) };
    told(status, value).map(|bytes| std::str::from_utf8(&output[..bytes]).expect("a listing is plain text"))
}
