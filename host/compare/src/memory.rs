//! The memory in which the parts of a call are lent: each stands between guard bytes.

use crate::call::Call;
use crate::part::Part;

const GUARD_BYTES: usize = 64;

/// One part in memory.
struct Lent {
    name: &'static str,
    memory: Vec<u8>,
    start: usize,
    bytes: usize,
}

/// A pattern that no shift by a few bytes repeats.
fn guard(index: usize) -> u8 {
    (index * 89 + 0xA5) as u8
}

impl Lent {
    /// Copies a part into guarded memory; plain bytes start `offset` bytes past a multiple of 8.
    fn new(name: &'static str, part: &dyn Part, offset: usize) -> Lent {
        let contents = part.memory();
        let mut memory: Vec<u8> = (0..contents.len() + 2 * GUARD_BYTES + 16).map(guard).collect();
        let aligned = GUARD_BYTES + memory[GUARD_BYTES..].as_ptr().align_offset(8);
        let start = if part.width() == 1 { aligned + offset } else { aligned };
        memory[start..start + contents.len()].copy_from_slice(&contents);
        Lent { name, memory, start, bytes: contents.len() }
    }

    fn contents(&self) -> &[u8] {
        &self.memory[self.start..self.start + self.bytes]
    }

    fn guards_kept(&self) -> bool {
        let end = self.start + self.bytes;
        (0..self.start).chain(end..self.memory.len()).all(|index| self.memory[index] == guard(index))
    }
}

/// All parts of one call in memory.
pub struct Loan(Vec<Lent>);

impl Loan {
    /// Lends copies of a call's parts; where plain bytes start varies with the call's contents.
    pub fn of(call: &Call) -> Loan {
        let mut offset = 0;
        let lend = |(name, _, part): (&'static str, _, &dyn Part)| {
            let lent = Lent::new(name, part, offset);
            offset = (offset + 1 + lent.contents().iter().take(64).map(|&byte| usize::from(byte)).sum::<usize>()) % 8;
            lent
        };
        Loan(call.parts().into_iter().map(lend).collect())
    }

    /// Where the part with this name stands.
    pub fn at<T>(&mut self, name: &str) -> *mut T {
        let lent = self.0.iter_mut().find(|lent| lent.name == name).expect("a part of the call");
        lent.memory[lent.start..].as_mut_ptr().cast()
    }

    pub fn guards_kept(&self) -> bool {
        self.0.iter().all(Lent::guards_kept)
    }

    /// The call with its parts as they are in memory now.
    pub fn returned(&self, call: &Call) -> Call {
        let mut after = call.clone();
        for (part, lent) in after.parts_mut().into_iter().zip(&self.0) {
            part.set(lent.contents());
        }
        after
    }
}

#[cfg(test)]
mod tests {
    use super::*;

    #[test]
    fn each_byte_around_a_part_is_guarded() {
        for contents in [vec![], vec![7; 5]] {
            for offset in 0..8 {
                let fresh = || Lent::new("buffer", &contents, offset);
                let lent = fresh();
                assert!(lent.guards_kept() && lent.contents() == contents);
                assert_eq!(lent.contents().as_ptr() as usize % 8, offset);
                assert!(lent.start >= GUARD_BYTES && lent.memory.len() - lent.start - lent.bytes >= GUARD_BYTES);
                for index in 0..lent.memory.len() {
                    let mut touched = fresh();
                    touched.memory[index] ^= 0x10;
                    let inside = (lent.start..lent.start + lent.bytes).contains(&index);
                    assert_eq!(touched.guards_kept(), inside, "byte {index}");
                }
            }
        }
    }

    #[test]
    fn a_changed_input_comes_back_changed() {
        let call = Call::AskPage { image: vec![1, 2, 3], map: vec![], page: 5, value: 6 };
        let mut loan = Loan::of(&call);
        assert_eq!(loan.returned(&call), call);
        let start = loan.0[0].start;
        loan.0[0].memory[start + 2] = 9;
        assert_eq!(loan.returned(&call), Call::AskPage { image: vec![1, 2, 9], map: vec![], page: 5, value: 6 });
        assert!(loan.guards_kept());
    }
}
