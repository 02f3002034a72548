//! The parts of which calls consist, each seen as the bytes that it has in memory, which serves lending, showing and shrinking alike.

use std::ops::Range;

/// A buffer, a list, the four symbols of a signature, a single number, or a single symbol.
pub trait Part {
    /// Bytes of one value.
    fn width(&self) -> usize;
    /// Whether the number of values can change.
    fn elastic(&self) -> bool;
    fn memory(&self) -> Vec<u8>;
    fn set(&mut self, memory: &[u8]);

    /// How many values there are.
    fn count(&self) -> usize {
        self.memory().len() / self.width()
    }

    fn values(&self) -> Vec<u64> {
        self.memory().chunks(self.width()).map(value).collect()
    }

    /// Drops a range of values.
    fn cut(&mut self, range: Range<usize>) {
        let mut memory = self.memory();
        memory.drain(range.start * self.width()..range.end * self.width());
        self.set(&memory);
    }

    /// Puts a lower value in the place of each value of a range, and answers whether that changed any.
    fn lower(&mut self, range: Range<usize>, lower: fn(u64) -> u64) -> bool {
        let before = self.memory();
        let mut memory = before.clone();
        for chunk in memory.chunks_mut(self.width()).take(range.end).skip(range.start) {
            let lowered = lower(value(chunk)).to_ne_bytes();
            chunk.copy_from_slice(&lowered[..chunk.len()]);
        }
        self.set(&memory);
        memory != before
    }

    /// The part as it is printed: bytes and symbols in hex, numbers in decimal.
    fn show(&self) -> String {
        let digits = self.width() * 2;
        let values = self.values();
        let one = |value: &u64| if digits <= 4 { format!("{value:0digits$x}") } else { value.to_string() };
        let text = values.iter().map(one).collect::<Vec<String>>().join(" ");
        if self.elastic() {
            format!("{} long [{text}]", values.len())
        } else {
            text
        }
    }
}

// A value narrower than 64 bits is widened and narrowed by its first bytes, and a number crosses as a size_t.
const _: () = assert!(cfg!(target_endian = "little") && usize::BITS == 64);

fn value(chunk: &[u8]) -> u64 {
    let mut bytes = [0; 8];
    bytes[..chunk.len()].copy_from_slice(chunk);
    u64::from_ne_bytes(bytes)
}

/// A kind of part: bytes of a value, whether it is elastic, its bytes in memory, and the part from such bytes.
macro_rules! part {
    ($kind:ty, $width:expr, $elastic:expr, $part:ident => $to:expr, $memory:ident => $from:expr) => {
        impl Part for $kind {
            fn width(&self) -> usize {
                $width
            }
            fn elastic(&self) -> bool {
                $elastic
            }
            fn memory(&self) -> Vec<u8> {
                let $part = self;
                $to
            }
            fn set(&mut self, $memory: &[u8]) {
                *self = $from;
            }
        }
    };
}

part!(u64, 8, false, number => number.to_ne_bytes().to_vec(), memory => value(memory));
part!(u32, 4, false, number => number.to_ne_bytes().to_vec(), memory => value(memory) as u32);
part!(u16, 2, false, symbol => symbol.to_ne_bytes().to_vec(), memory => value(memory) as u16);
part!(Vec<u8>, 1, true, bytes => bytes.clone(), memory => memory.to_vec());
part!(Vec<u64>, 8, true,
    list => list.iter().flat_map(|number| number.to_ne_bytes()).collect(), memory => memory.chunks(8).map(value).collect());
part!([u16; 4], 2, false,
    symbols => symbols.iter().flat_map(|symbol| symbol.to_ne_bytes()).collect(),
    memory => [0, 2, 4, 6].map(|start| value(&memory[start..start + 2]) as u16));
