//! A backup, the image of a table and its map: stored whole or a page a step, and loaded.

use crate::refusal::{told, unknown};
use crate::{Bytes, Refusal};
use cotelark_sys::*;

/// Stores a table: each page whose signature is not its entry's goes into the image, its signature into the entry, and its number into `list`. Answers these
/// numbers, upward: the start of the list, which needs room for as many as there are pages.
///
/// Where the map holds the signatures of the image's pages and no page differs in more than n symbols, the image is then equal to the table, and the
/// pages written are precisely those that differed.
///
/// # Errors
///
/// [`Refusal::Map`], [`Refusal::Match`] (table, image and the map's bucket differ in length), [`Refusal::Room`].
///
/// ```
/// use cotelark::{make_map, store, Bytes};
///
/// let (mut table, mut room, mut list) = ([0; 4096], [0; 200], [0; 8]);
/// let mut image = table;
/// let map = make_map(4, Bytes(512), &table, &mut room)?;
/// table[1030] = 7;
/// assert_eq!(store(&table, &mut image, map, &mut list)?, [2]);
/// assert_eq!(image, table);
/// # Ok::<(), cotelark::Refusal>(())
/// ```
pub fn store<'a>(table: &[u8], image: &mut [u8], map: &mut [u8], list: &'a mut [usize]) -> Result<&'a [usize], Refusal> {
    let mut value = 0;
    let status = unsafe {
        cotelark_store(
            table.as_ptr(),
            table.len(),
            image.as_mut_ptr(),
            image.len(),
            map.as_mut_ptr(),
            map.len(),
            list.as_mut_ptr(),
            list.len(),
            &mut value,
        )
    };
    told(status, value).map(|written| &list[..written])
}

/// A store that is taken a page a step: the place at which it stands, from 0 up to the page count.
///
/// Between steps nothing is borrowed. Steps from [`Place::START`] to [`Step::Finished`] do what [`store`] does, if nobody else writes to table, image or map
/// meanwhile.
///
/// ```
/// use cotelark::{make_map, Bytes, Place, Step};
///
/// let (mut table, mut room) = ([0; 10], [0; 100]);
/// let mut image = table;
/// let map = make_map(4, Bytes(4), &table, &mut room)?;
/// table[9] = 1;
///
/// let mut place = Place::START;
/// assert_eq!(place.step(&table, &mut image, map)?, Step::Kept(0));
/// assert_eq!(place.step(&table, &mut image, map)?, Step::Kept(1));
/// assert_eq!(place.step(&table, &mut image, map)?, Step::Written(2));
/// assert_eq!(place.step(&table, &mut image, map)?, Step::Finished);
/// assert_eq!(image, table);
/// # Ok::<(), cotelark::Refusal>(())
/// ```
#[derive(Clone, Copy, Debug, Default, PartialEq, Eq, Hash)]
pub struct Place(usize);

/// What a step of a store did.
#[derive(Clone, Copy, Debug, PartialEq, Eq, Hash)]
pub enum Step {
    /// The page of this number has its entry's signature, and was kept.
    Kept(usize),
    /// The page of this number went into the image, its signature into the entry.
    Written(usize),
    /// There is no page left.
    Finished,
}

impl Place {
    /// Before the first page.
    pub const START: Place = Place(0);

    /// Before page `k`. Whether there is one, the step tells.
    pub fn at(k: usize) -> Place {
        Place(k)
    }

    /// The page that the next step looks at; the page count, where none is left.
    pub fn page(&self) -> usize {
        self.0
    }

    /// Takes one page, and goes on to the next; where the store is finished, or the step is refused, the place stays.
    ///
    /// # Errors
    ///
    /// [`Refusal::Map`], [`Refusal::Match`] (table, image and the map's bucket differ in length), [`Refusal::PageNo`] (a place above the page count).
    pub fn step(&mut self, table: &[u8], image: &mut [u8], map: &mut [u8]) -> Result<Step, Refusal> {
        let (mut answer, mut value) = (0, 0);
        let status = unsafe {
            cotelark_step(
                &mut self.0,
                table.as_ptr(),
                table.len(),
                image.as_mut_ptr(),
                image.len(),
                map.as_mut_ptr(),
                map.len(),
                &mut answer,
                &mut value,
            )
        };
        told(status, value).map(|page| match answer {
            COTELARK_STEP_KEPT => Step::Kept(page),
            COTELARK_STEP_WRITTEN => Step::Written(page),
            COTELARK_STEP_FINISHED => Step::Finished,
            _ => unknown(answer),
        })
    }
}

/// One page of a backup: the part of the image that it is, if it has its entry's signature. Nothing is copied.
///
/// # Errors
///
/// [`Refusal::Map`], [`Refusal::Match`] (the image and the map's bucket differ in length), [`Refusal::PageNo`], [`Refusal::Damaged`].
///
/// ```
/// use cotelark::{load_page, make_map, Bytes, Refusal};
///
/// let (mut image, mut room) = (*b"a table!", [0; 100]);
/// let map = make_map(4, Bytes(6), &image, &mut room)?;
/// assert_eq!(load_page(&image, map, 1)?, b"e!");
/// image[7] = b'?';
/// assert_eq!(load_page(&image, map, 1), Err(Refusal::Damaged { page: 1 }));
/// # Ok::<(), cotelark::Refusal>(())
/// ```
pub fn load_page<'a>(image: &'a [u8], map: &[u8], page: usize) -> Result<&'a [u8], Refusal> {
    let (mut start, mut bytes, mut value) = (0, 0, 0);
    let status = unsafe { cotelark_load_page(image.as_ptr(), image.len(), map.as_ptr(), map.len(), page, &mut start, &mut bytes, &mut value) };
    told(status, value).map(|_| &image[start..start + bytes])
}

/// Whether [`load_page`] would load that page.
///
/// # Errors
///
/// As [`load_page`] is.
///
/// ```
/// # let mut room = [0; 100];
/// # let image = [0; 8];
/// # let map = cotelark::make_map(4, cotelark::Bytes(6), &image, &mut room)?;
/// assert_eq!(cotelark::ask_page(&image, map, 1), Ok(()));
/// assert_eq!(cotelark::ask_page(&image, map, 2), Err(cotelark::Refusal::PageNo));
/// # Ok::<(), cotelark::Refusal>(())
/// ```
pub fn ask_page(image: &[u8], map: &[u8], page: usize) -> Result<(), Refusal> {
    let mut value = 0;
    let status = unsafe { cotelark_ask_page(image.as_ptr(), image.len(), map.as_ptr(), map.len(), page, &mut value) };
    told(status, value).map(|_| ())
}

/// Loads a bucket: all of the image goes into the table, once every page is found to have its entry's signature. Answers the bytes moved.
///
/// # Errors
///
/// [`Refusal::Map`], [`Refusal::Match`] (table, image and the map's bucket differ in length), [`Refusal::Damaged`].
///
/// ```
/// use cotelark::{load_bucket, make_map, Bytes};
///
/// let (image, mut table, mut room) = (*b"a table!", [0; 8], [0; 100]);
/// let map = make_map(4, Bytes(6), &image, &mut room)?;
/// assert_eq!(load_bucket(&image, map, &mut table)?, Bytes(8));
/// assert_eq!(table, image);
/// # Ok::<(), cotelark::Refusal>(())
/// ```
pub fn load_bucket(image: &[u8], map: &[u8], table: &mut [u8]) -> Result<Bytes, Refusal> {
    let mut value = 0;
    let status = unsafe { cotelark_load_bucket(image.as_ptr(), image.len(), map.as_ptr(), map.len(), table.as_mut_ptr(), table.len(), &mut value) };
    told(status, value).map(Bytes)
}
