//! The call table: slots of 16 bytes with a call's number (0 where the slot is free), priority, lane, sequence and address.

/// The bytes of a slot, of a page of the backup, and of the table.
pub const SLOT: usize = 16;
pub const PAGE: usize = 4_096;
const TABLE: usize = 16_777_216;

/// Where a slot has its call's priority, 0 or 1.
const PRIORITY: usize = 4;

/// Numbers by chance, the same in every run (SplitMix64).
pub struct Dice(pub u64);

impl Dice {
    fn next(&mut self) -> u64 {
        self.0 = self.0.wrapping_add(0x9E37_79B9_7F4A_7C15);
        let mixed = (self.0 ^ (self.0 >> 30)).wrapping_mul(0xBF58_476D_1CE4_E5B9);
        let mixed = (mixed ^ (mixed >> 27)).wrapping_mul(0x94D0_49BB_1331_11EB);
        mixed ^ (mixed >> 31)
    }

    pub fn below(&mut self, limit: usize) -> usize {
        (self.next() % limit as u64) as usize
    }
}

/// A full table: of four slots three have a call.
pub fn new_table() -> Vec<u8> {
    let mut dice = Dice(1);
    let mut table = vec![0; TABLE];
    for (number, slot) in (1u32..).zip(table.chunks_mut(SLOT)) {
        if dice.below(4) > 0 {
            slot[..4].copy_from_slice(&number.to_le_bytes());
            slot[PRIORITY] = dice.below(2) as u8;
            slot[5] = dice.below(2) as u8;
            slot[6..8].copy_from_slice(&(dice.next() as u16).to_le_bytes());
            slot[8..].copy_from_slice(&dice.next().to_le_bytes());
        }
    }
    table
}

/// Changes the priority of some call of a page: to this one, or to the other one than it has.
pub fn change_flag(page: &mut [u8], dice: &mut Dice, to: Option<u8>) {
    let fits = |slot: &[u8]| slot[..4] != [0; 4] && to != Some(slot[PRIORITY]);
    let count = page.chunks(SLOT).filter(|slot| fits(slot)).count();
    let chosen = page.chunks_mut(SLOT).filter(|slot| fits(slot)).nth(dice.below(count.max(1)));
    if let Some(slot) = chosen {
        slot[PRIORITY] ^= 1;
    }
}
