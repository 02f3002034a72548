//! GF(2^16) over x^16 + x^12 + x^3 + x + 1, by tables of logarithms and antilogarithms to the base α = 2.

use std::sync::OnceLock;

const POLYNOMIAL: u32 = 0x1_100B;

/// The order of α, which is the modulus for every sum of logarithms.
pub const ORDER: u64 = 65_535;

struct Tables {
    /// At a symbol other than zero, its logarithm; what stands at zero is never used.
    log: Vec<u16>,
    antilog: Vec<u16>,
}

fn tables() -> &'static Tables {
    static TABLES: OnceLock<Tables> = OnceLock::new();
    TABLES.get_or_init(build)
}

fn build() -> Tables {
    let mut tables = Tables { log: vec![0; 65_536], antilog: vec![0; 65_536] };
    let mut power: u32 = 1;
    for exponent in 0..u16::MAX {
        tables.antilog[usize::from(exponent)] = power as u16;
        tables.log[power as usize] = exponent;
        power <<= 1;
        if power > 0xFFFF {
            power ^= POLYNOMIAL;
        }
    }
    tables
}

/// α to any exponent.
pub fn power(exponent: u64) -> u16 {
    tables().antilog[(exponent % ORDER) as usize]
}

/// The logarithm of a symbol; zero has none.
fn logarithm(symbol: u16) -> Option<u64> {
    (symbol != 0).then(|| u64::from(tables().log[usize::from(symbol)]))
}

/// A symbol times α to the exponent.
pub(crate) fn times_power(symbol: u16, exponent: u64) -> u16 {
    logarithm(symbol).map_or(0, |log| power(log + exponent % ORDER))
}

/// The product of two symbols.
pub fn product(one: u16, other: u16) -> u16 {
    logarithm(other).map_or(0, |log| times_power(one, log))
}

#[cfg(test)]
mod tests {
    use super::*;

    /// The definition: shift and add, reducing whenever the 17th bit appears.
    fn product_by_bits(one: u16, other: u16) -> u16 {
        let (mut shifted, mut sum) = (u32::from(one), 0);
        for bit in 0..16 {
            if other >> bit & 1 == 1 {
                sum ^= shifted;
            }
            shifted <<= 1;
            if shifted & 0x1_0000 != 0 {
                shifted ^= 0x1_0000 | 0x1000 | 0x0008 | 0x0002 | 0x0001;
            }
        }
        sum as u16
    }

    #[test]
    fn products_are_those_of_the_polynomials() {
        let edges = [0, 1, 2, 3, 0x41, 0x100B, 0x7FFF, 0x8000, 0xFFFE, 0xFFFF];
        let spread = (0u16..1_500).map(|k| k.wrapping_mul(40_503).wrapping_add(7));
        let symbols: Vec<u16> = edges.into_iter().chain(spread).collect();
        for &one in &symbols {
            for &other in &symbols {
                assert_eq!(product(one, other), product_by_bits(one, other), "{one:x} times {other:x}");
            }
        }
        assert_eq!(product(2, 0x8000), 0x100B);
    }

    #[test]
    fn alpha_has_order_65535() {
        let mut symbol = 1;
        let mut seen = vec![false; 65_536];
        for exponent in 0..65_535 {
            assert_eq!(power(exponent), symbol);
            assert!(!std::mem::replace(&mut seen[usize::from(symbol)], true), "α^{exponent} came before");
            symbol = product_by_bits(symbol, 2);
        }
        assert_eq!((symbol, seen[0]), (1, false));
        assert_eq!((power(65_535), power(u64::MAX)), (1, 1), "65,535 divides 2^64 - 1");
    }

    #[test]
    fn zero_has_no_logarithm() {
        assert_eq!((logarithm(0), logarithm(1), logarithm(2)), (None, Some(0), Some(1)));
        assert_eq!((times_power(0, 5), times_power(1, u64::MAX)), (0, 1));
    }
}
