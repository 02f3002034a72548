//! Signatures: of an object, of two parts end to end, and of a page after an edit.

use crate::refusal::told;
use crate::{Refusal, Symbols};
use cotelark_sys::{cotelark_edit, cotelark_join, cotelark_sign};

/// A signature of n components, n from 1 to 4.
#[derive(Clone, Copy, Debug, PartialEq, Eq, Hash)]
pub struct Signature {
    n: usize,
    components: [u16; 4],
}

impl Signature {
    /// The signature with these components, the first one first: as they stand in a map's entry, say.
    ///
    /// # Errors
    ///
    /// [`Refusal::Size`], where there are none or more than four.
    ///
    /// ```
    /// use cotelark::{sign, Refusal, Signature};
    ///
    /// assert_eq!(Signature::new(&[5, 9]), sign(2, &[1, 0, 2, 0]));
    /// assert_eq!(Signature::new(&[]), Err(Refusal::Size));
    /// ```
    pub fn new(components: &[u16]) -> Result<Signature, Refusal> {
        let mut signature = Signature { n: components.len(), components: [0; 4] };
        signature.components.get_mut(..components.len()).ok_or(Refusal::Size)?.copy_from_slice(components);
        // Editing nothing gives the signature itself, and refuses what is none.
        edit(&signature, Symbols(0), &[], &[])
    }

    /// How many components it has.
    pub fn n(&self) -> usize {
        self.n
    }

    /// Its components, the first one first.
    pub fn components(&self) -> &[u16] {
        &self.components[..self.n]
    }
}

/// The n-symbol signature of an object of at most 65,534 symbols; an odd last byte is completed by a zero.
///
/// # Errors
///
/// [`Refusal::Size`], [`Refusal::Long`].
///
/// ```
/// let signature = cotelark::sign(2, &[1, 0, 2, 0])?;
/// assert_eq!(signature.components(), [5, 9]);
/// # Ok::<(), cotelark::Refusal>(())
/// ```
pub fn sign(n: usize, object: &[u8]) -> Result<Signature, Refusal> {
    let mut components = [0; 4];
    let status = unsafe { cotelark_sign(n, object.as_ptr(), object.len(), components.as_mut_ptr()) };
    signed(status, n, components)
}

/// The signature of two parts end to end, from theirs: the first part has `a` symbols, the second `b`.
///
/// It is the whole's own signature when each one handed in is its part's own and the first part has an even number of bytes.
///
/// # Errors
///
/// [`Refusal::Long`] (both counts together), [`Refusal::Match`] (two different n).
///
/// ```
/// use cotelark::{join, sign, Symbols};
///
/// let joined = join(&sign(2, &[1, 0])?, Symbols(1), &sign(2, &[2, 0])?, Symbols(1))?;
/// assert_eq!(joined, sign(2, &[1, 0, 2, 0])?);
/// # Ok::<(), cotelark::Refusal>(())
/// ```
pub fn join(first: &Signature, a: Symbols, second: &Signature, b: Symbols) -> Result<Signature, Refusal> {
    let mut components = [0; 4];
    let status =
        unsafe { cotelark_join(first.n, first.components.as_ptr(), a.0, second.n, second.components.as_ptr(), b.0, components.as_mut_ptr()) };
    signed(status, first.n, components)
}

/// The signature of a page in which `old` bytes are replaced by `new` ones, from symbol `r` on; the page itself is not needed.
///
/// It is the edited page's own signature when the one handed in is the page's own and the page holds the old bytes there.
///
/// # Errors
///
/// [`Refusal::Long`] (`r` and the old bytes' symbols together), [`Refusal::Odd`] (either piece), [`Refusal::Match`] (pieces of unequal length).
///
/// ```
/// use cotelark::{edit, sign, Symbols};
///
/// let page = sign(2, &[1, 0, 2, 0])?;
/// assert_eq!(edit(&page, Symbols(1), &[2, 0], &[3, 0])?, sign(2, &[1, 0, 3, 0])?);
/// # Ok::<(), cotelark::Refusal>(())
/// ```
pub fn edit(signature: &Signature, r: Symbols, old: &[u8], new: &[u8]) -> Result<Signature, Refusal> {
    let (n, mut components) = (signature.n, [0; 4]);
    let page = signature.components.as_ptr();
    let status = unsafe { cotelark_edit(n, page, r.0, old.as_ptr(), old.len(), new.as_ptr(), new.len(), components.as_mut_ptr()) };
    signed(status, n, components)
}

fn signed(status: u32, n: usize, components: [u16; 4]) -> Result<Signature, Refusal> {
    told(status, 0).map(|_| Signature { n, components })
}
