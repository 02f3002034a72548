//! One symbol of a page put right.

use crate::refusal::{told, unknown};
use crate::{Refusal, Symbols};
use cotelark_sys::{cotelark_repair_page, COTELARK_REPAIR_BEYOND, COTELARK_REPAIR_REPAIRED, COTELARK_REPAIR_WHOLE};

/// What a repair found and did.
#[derive(Clone, Copy, Debug, PartialEq, Eq, Hash)]
pub enum Repair {
    /// The page has its entry's signature; nothing was changed.
    Whole,
    /// The change of one symbol gives the page its entry's signature, and was made.
    Repaired {
        /// The symbol's position in the page.
        position: Symbols,
        /// What stood there.
        old: u16,
        /// What stands there now.
        new: u16,
        /// Whether two damaged symbols may have been taken for one: so with n = 2, and with no other n.
        marked: bool,
    },
    /// No change of one symbol gives the page its entry's signature; nothing was changed.
    Beyond,
}

/// Puts a page of the image right that one damaged symbol keeps from its entry's signature.
///
/// As long as the entry is the undamaged page's, one damaged symbol is always restored; with n of 3 or 4 two are [`Repair::Beyond`].
///
/// # Errors
///
/// [`Refusal::Map`], [`Refusal::Match`] (the image and the map's bucket differ in length), [`Refusal::PageNo`], [`Refusal::Thin`].
///
/// ```
/// use cotelark::{make_map, repair_page, Bytes, Repair, Symbols};
///
/// let (mut image, mut room) = (*b"a table!", [0; 100]);
/// let map = make_map(4, Bytes(6), &image, &mut room)?;
/// image[3] = 0;
/// let (old, new) = (u16::from_le_bytes([b't', 0]), u16::from_le_bytes(*b"ta"));
/// assert_eq!(repair_page(&mut image, map, 0)?, Repair::Repaired { position: Symbols(1), old, new, marked: false });
/// assert_eq!(&image, b"a table!");
/// assert_eq!(repair_page(&mut image, map, 0)?, Repair::Whole);
/// # Ok::<(), cotelark::Refusal>(())
/// ```
pub fn repair_page(image: &mut [u8], map: &[u8], page: usize) -> Result<Repair, Refusal> {
    let (mut answer, mut position, mut old, mut new, mut marked, mut value) = (0, 0, 0, 0, 0, 0);
    let status = unsafe {
        cotelark_repair_page(
            image.as_mut_ptr(),
            image.len(),
            map.as_ptr(),
            map.len(),
            page,
            &mut answer,
            &mut position,
            &mut old,
            &mut new,
            &mut marked,
            &mut value,
        )
    };
    told(status, value).map(|_| match answer {
        COTELARK_REPAIR_WHOLE => Repair::Whole,
        COTELARK_REPAIR_REPAIRED => Repair::Repaired { position: Symbols(position), old, new, marked: marked != 0 },
        COTELARK_REPAIR_BEYOND => Repair::Beyond,
        _ => unknown(answer),
    })
}
