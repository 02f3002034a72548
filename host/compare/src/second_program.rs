//! The second program, put behind the same calls as the library.

use crate::call::{Call, Outcome, Program};
use crate::library::{BEYOND, FINISHED, KEPT, REFUSED, REPAIRED, WHOLE, WRITTEN};
use crate::told::{put, tell, TurnedDown};
use second::{Refusal, Repair, Signature, Step};

/// The second program.
pub struct Second;

impl Program for Second {
    fn name(&self) -> String {
        "second".to_string()
    }

    fn run(&self, call: &Call) -> Outcome {
        let mut after = call.clone();
        let status = carry_out(&mut after);
        Outcome { status, after, guards_kept: true }
    }
}

fn carry_out(call: &mut Call) -> u32 {
    match call {
        Call::Sign { n, object, signature } => put(signature, second::sign(*n, object).map(components)),
        Call::Join { first_n, first, first_symbols, second_n, second, second_symbols, joined } => {
            let first = Signature { n: *first_n, components: *first };
            let second = Signature { n: *second_n, components: *second };
            put(joined, second::join(&first, *first_symbols, &second, *second_symbols).map(components))
        }
        Call::Edit { n, signature, at_symbol, old_piece, new_piece, edited } => {
            let signature = Signature { n: *n, components: *signature };
            put(edited, second::edit(&signature, *at_symbol, old_piece, new_piece).map(components))
        }
        Call::MakeMap { n, page_bytes, bucket, output, value } => {
            tell([value], second::make_map(*n, *page_bytes, bucket, output).map(|bytes| [bytes]))
        }
        Call::ReadMap { map, n, page_bytes, bucket_bytes, pages, value } => {
            let header = second::read_map(map).map(|header| [0, header.n, header.page_bytes, header.bucket_bytes, header.pages]);
            tell([value, n, page_bytes, bucket_bytes, pages], header)
        }
        Call::ListMap { map, output, value } => tell([value], second::list_map(map, output).map(|bytes| [bytes])),
        Call::Store { table, image, map, list, value } => tell([value], second::store(table, image, map, list).map(|written| [written])),
        Call::Step { place, table, image, map, answer, value } => tell_step(answer, value, second::step(place, table, image, map)),
        Call::LoadPage { image, map, page, start, bytes, value } => {
            let part = second::load_page(image, map, *page);
            tell([value, start, bytes], part.map(|part| [0, part.start as u64, part.len() as u64]))
        }
        Call::AskPage { image, map, page, value } => tell([value], second::ask_page(image, map, *page).map_or(Ok([0]), Err)),
        Call::LoadBucket { image, map, table, value } => tell([value], second::load_bucket(image, map, table).map(|bytes| [bytes])),
        Call::RepairPage { image, map, page, answer, position, old_symbol, new_symbol, marked, value } => {
            let repair = second::repair_page(image, map, *page);
            (*answer, *position, *old_symbol, *new_symbol, *marked) = numbers_of(&repair);
            tell([value], repair.map(|_| [0]))
        }
        Call::Encode { plain, output, value } => tell([value], second::encode(plain, output).map(|bytes| [bytes])),
        Call::Decode { code, output, value } => tell([value], second::decode(code, output).map(|bytes| [bytes])),
        Call::Search { code, pattern, list, value } => tell([value], second::search(code, pattern, list).map(|found| [found])),
    }
}

impl TurnedDown for Refusal {
    fn number(&self) -> u32 {
        self.number
    }

    fn value(&self) -> u64 {
        self.value
    }
}

fn components(signature: Signature) -> [u16; 4] {
    signature.components
}

fn tell_step(answer: &mut u32, value: &mut u64, step: Result<Step, Refusal>) -> u32 {
    let (status, told, page) = match step {
        Ok(Step::Kept(page)) => (0, KEPT, page),
        Ok(Step::Written(page)) => (0, WRITTEN, page),
        Ok(Step::Finished) => (0, FINISHED, 0),
        Err(refusal) => (refusal.number, REFUSED, refusal.value),
    };
    (*answer, *value) = (told, page);
    status
}

/// What a repair tells beside its value: the answer, the symbol's position, its old and new value, and the mark.
fn numbers_of(repair: &Result<Repair, Refusal>) -> (u32, u64, u16, u16, u32) {
    match *repair {
        Ok(Repair::Whole) => (WHOLE, 0, 0, 0, 0),
        Ok(Repair::Repaired { position, old, new, marked }) => (REPAIRED, position, old, new, u32::from(marked)),
        Ok(Repair::Beyond) => (BEYOND, 0, 0, 0, 0),
        Err(_) => (REFUSED, 0, 0, 0, 0),
    }
}
