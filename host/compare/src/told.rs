//! How an answer goes to where a call has it: signatures and single numbers.

/// Why a call is turned down: its number in the scope's table, and the value beside it.
pub trait TurnedDown {
    fn number(&self) -> u32;
    fn value(&self) -> u64;
}

/// Puts a signature where it goes; a refused call leaves that as it was.
pub fn put(signature: &mut [u16; 4], answer: Result<[u16; 4], impl TurnedDown>) -> u32 {
    match answer {
        Ok(components) => {
            *signature = components;
            0
        }
        Err(refusal) => refusal.number(),
    }
}

/// Writes the numbers told, `value` first; of a refusal its value, and zeros.
pub fn tell<const COUNT: usize>(told: [&mut u64; COUNT], answer: Result<[u64; COUNT], impl TurnedDown>) -> u32 {
    let (status, numbers) = match answer {
        Ok(numbers) => (0, numbers),
        Err(refusal) => (refusal.number(), std::array::from_fn(|index| if index == 0 { refusal.value() } else { 0 })),
    };
    for (place, number) in told.into_iter().zip(numbers) {
        *place = number;
    }
    status
}
