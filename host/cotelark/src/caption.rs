//! Caption fields: encoded, decoded and searched.

use crate::refusal::told;
use crate::{Refusal, Symbols};
use cotelark_sys::{cotelark_decode, cotelark_encode, cotelark_search};

/// Writes the cumulative code of a plain field of at most 32,768 symbols to the start of `output`, and answers it.
///
/// # Errors
///
/// [`Refusal::Long`], [`Refusal::Odd`], [`Refusal::Room`].
///
/// ```
/// let mut room = [0; 100];
/// assert_eq!(cotelark::encode(&[1, 0, 2, 0, 3, 0], &mut room)?, [1, 0, 5, 0, 9, 0]);
/// # Ok::<(), cotelark::Refusal>(())
/// ```
pub fn encode<'a>(plain: &[u8], output: &'a mut [u8]) -> Result<&'a mut [u8], Refusal> {
    let mut value = 0;
    let status = unsafe { cotelark_encode(plain.as_ptr(), plain.len(), output.as_mut_ptr(), output.len(), &mut value) };
    told(status, value).map(|bytes| &mut output[..bytes])
}

/// Writes the plain field of a code to the start of `output`, and answers it: [`encode`] undone.
///
/// # Errors
///
/// [`Refusal::Long`], [`Refusal::Odd`], [`Refusal::Room`].
///
/// ```
/// let mut room = [0; 100];
/// assert_eq!(cotelark::decode(&[1, 0, 5, 0, 9, 0], &mut room)?, [1, 0, 2, 0, 3, 0]);
/// # Ok::<(), cotelark::Refusal>(())
/// ```
pub fn decode<'a>(code: &[u8], output: &'a mut [u8]) -> Result<&'a mut [u8], Refusal> {
    let mut value = 0;
    let status = unsafe { cotelark_decode(code.as_ptr(), code.len(), output.as_mut_ptr(), output.len(), &mut value) };
    told(status, value).map(|bytes| &mut output[..bytes])
}

/// Writes the places at which a plain pattern hits in an encoded field to the start of `list`, upward, and answers them. The list needs room for m − l + 1
/// places, for a pattern of l symbols in a field of m, and for none where l is above m.
///
/// A place hits where the field's part there has the pattern's first component; the part itself may still be another one.
///
/// # Errors
///
/// [`Refusal::Long`] (the field), [`Refusal::Odd`] (field or pattern), [`Refusal::Room`], [`Refusal::Empty`].
///
/// ```
/// use cotelark::{encode, search, Symbols};
///
/// let mut room = [0; 8];
/// let code = encode(b"abcdefef", &mut room)?;
/// assert_eq!(search(code, b"ef", &mut [Symbols(0); 4])?, [Symbols(2), Symbols(3)]);
/// # Ok::<(), cotelark::Refusal>(())
/// ```
pub fn search<'a>(code: &[u8], pattern: &[u8], list: &'a mut [Symbols]) -> Result<&'a [Symbols], Refusal> {
    let mut value = 0;
    // A count of symbols is laid out as its number.
    let numbers = list.as_mut_ptr().cast();
    let status = unsafe { cotelark_search(code.as_ptr(), code.len(), pattern.as_ptr(), pattern.len(), numbers, list.len(), &mut value) };
    told(status, value).map(|places| &list[..places])
}
