//! Caption fields: the cumulative code, with positions from 0, and the search in an encoded field.

use crate::field::{times_power, ORDER};
use crate::signature::{component, symbols};
use crate::{refuse_if, room_for, symbols_in, Refusal, EMPTY, LONG, ODD};

/// The most symbols that a caption field may have.
const FIELD_SYMBOLS: u64 = 32_768;

/// Encodes a plain field: symbol i of the code is the sum of p_k · α^k for k from 0 to i.
pub fn encode(plain: &[u8], output: &mut [u8]) -> Result<u64, Refusal> {
    let mut sum = 0;
    translate(plain, output, |i, symbol| {
        sum ^= times_power(symbol, i);
        sum
    })
}

/// Decodes a field: two neighbours of the code differ by p_i · α^i, and α^(65,535 - i) undoes α^i.
pub fn decode(code: &[u8], output: &mut [u8]) -> Result<u64, Refusal> {
    let mut before = 0;
    translate(code, output, |i, symbol| times_power(symbol ^ std::mem::replace(&mut before, symbol), ORDER - i))
}

/// Writes each symbol of a field by the rule, and answers the bytes written.
fn translate(field: &[u8], output: &mut [u8], mut rule: impl FnMut(u64, u16) -> u16) -> Result<u64, Refusal> {
    refuse_if(symbols_in(field.len()) > FIELD_SYMBOLS, LONG, 0)?;
    refuse_if(field.len() % 2 == 1, ODD, 0)?;
    room_for(field.len() as u64, output.len())?;
    for (i, (symbol, pair)) in symbols(field).zip(output.chunks_exact_mut(2)).enumerate() {
        pair.copy_from_slice(&rule(i as u64, symbol).to_le_bytes());
    }
    Ok(field.len() as u64)
}

/// Lists the places, upward, at which a plain pattern hits in an encoded field, and answers how many they are.
pub fn search(code: &[u8], pattern: &[u8], list: &mut [u64]) -> Result<u64, Refusal> {
    let (m, l) = (symbols_in(code.len()), symbols_in(pattern.len()));
    refuse_if(m > FIELD_SYMBOLS, LONG, 0)?;
    refuse_if(code.len() % 2 == 1 || pattern.len() % 2 == 1, ODD, 0)?;
    let places = if 1 <= l && l <= m { m - l + 1 } else { 0 };
    room_for(places, list.len())?;
    refuse_if(l == 0, EMPTY, 0)?;
    if places == 0 {
        return Ok(0);
    }
    let hits = hits(&symbols(code).collect::<Vec<u16>>(), l as usize, component(1, pattern));
    list[..hits.len()].copy_from_slice(&hits);
    Ok(hits.len() as u64)
}

/// The places i with c(i+l-1) + c(i-1) = α^i · s1, where c(-1) is 0.
fn hits(code: &[u16], l: usize, s1: u16) -> Vec<u64> {
    let before = std::iter::once(&0).chain(code);
    let ends = code[l - 1..].iter().zip(before).zip(0u64..);
    ends.filter(|((last, before), i)| *last ^ *before == times_power(s1, *i)).map(|(_, i)| i).collect()
}
