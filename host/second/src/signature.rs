//! The n-symbol signature of an object, the join of two and the edit of one.

use crate::field::times_power;
use crate::{refuse_if, size_allowed, symbols_in, Refusal, LONG, MATCH, ODD, SIZE};

/// The most symbols that an object signed, joined or edited may have.
const OBJECT_SYMBOLS: u128 = 65_534;

/// A signature as it is handed over: n, and four symbols of which those above n say nothing.
#[derive(Clone, Copy, Debug, PartialEq, Eq)]
pub struct Signature {
    pub n: u64,
    pub components: [u16; 4],
}

/// The n components by the rule given for component j, and zeros above n.
fn components_by(n: u64, rule: impl Fn(u64) -> u16) -> [u16; 4] {
    [1, 2, 3, 4].map(|j| if j <= n { rule(j) } else { 0 })
}

/// The symbols of an object, low byte first, an odd last byte completed by a zero.
pub(crate) fn symbols(object: &[u8]) -> impl Iterator<Item = u16> + '_ {
    object.chunks(2).map(|pair| u16::from(pair[0]) | pair.get(1).map_or(0, |&high| u16::from(high) << 8))
}

/// Component j: the sum over i of p_i · α^(ij).
pub(crate) fn component(j: u64, object: &[u8]) -> u16 {
    symbols(object).zip(0u64..).fold(0, |sum, (symbol, i)| sum ^ times_power(symbol, i * j))
}

/// The components of an object whose n and length are known to be allowed.
pub(crate) fn components(n: u64, object: &[u8]) -> [u16; 4] {
    components_by(n, |j| component(j, object))
}

/// The signature of an object.
pub fn sign(n: u64, object: &[u8]) -> Result<Signature, Refusal> {
    refuse_if(!size_allowed(n), SIZE, 0)?;
    refuse_if(u128::from(symbols_in(object.len())) > OBJECT_SYMBOLS, LONG, 0)?;
    Ok(Signature { n, components: components(n, object) })
}

/// The signature of two parts end to end, the first of `a` symbols and the second of `b`.
pub fn join(first: &Signature, a: u64, second: &Signature, b: u64) -> Result<Signature, Refusal> {
    refuse_if(!size_allowed(first.n) || !size_allowed(second.n), SIZE, 0)?;
    refuse_if(u128::from(a) + u128::from(b) > OBJECT_SYMBOLS, LONG, 0)?;
    refuse_if(first.n != second.n, MATCH, 0)?;
    Ok(first.changed_by(|j| times_power(second.component(j), j * a)))
}

/// The signature after old bytes are replaced by new ones from symbol `r` on.
pub fn edit(signature: &Signature, r: u64, old: &[u8], new: &[u8]) -> Result<Signature, Refusal> {
    refuse_if(!size_allowed(signature.n), SIZE, 0)?;
    refuse_if(u128::from(r) + u128::from(symbols_in(old.len())) > OBJECT_SYMBOLS, LONG, 0)?;
    refuse_if(old.len() % 2 == 1 || new.len() % 2 == 1, ODD, 0)?;
    refuse_if(old.len() != new.len(), MATCH, 0)?;
    Ok(signature.changed_by(|j| times_power(component(j, old) ^ component(j, new), j * r)))
}

impl Signature {
    fn component(&self, j: u64) -> u16 {
        self.components[j as usize - 1]
    }

    /// The signature with a change added to each component, and zeros above n.
    fn changed_by(&self, change: impl Fn(u64) -> u16) -> Signature {
        Signature { n: self.n, components: components_by(self.n, |j| self.component(j) ^ change(j)) }
    }
}
