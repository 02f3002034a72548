//! The library through its Rust interface, put behind the same calls.

use crate::call::{Call, Outcome, Program};
use crate::library::{BEYOND, FINISHED, KEPT, REFUSED, REPAIRED, WHOLE, WRITTEN};
use crate::told::{put, tell, TurnedDown};
use cotelark::{Bytes, Place, Refusal, Repair, Signature, Step, Symbols};

/// The Rust interface.
pub struct Wrapper;

impl Program for Wrapper {
    fn name(&self) -> String {
        "wrapper".to_string()
    }

    fn run(&self, call: &Call) -> Outcome {
        let mut after = call.clone();
        let status = carry_out(&mut after);
        Outcome { status, after, guards_kept: true }
    }
}

impl TurnedDown for Refusal {
    fn number(&self) -> u32 {
        Refusal::number(self)
    }

    fn value(&self) -> u64 {
        Refusal::value(self) as u64
    }
}

fn carry_out(call: &mut Call) -> u32 {
    match call {
        Call::Sign { n, object, signature } => put(signature, cotelark::sign(*n as usize, object).map(components)),
        Call::Join { first_n, first, first_symbols, second_n, second, second_symbols, joined } => {
            let (a, b) = (Symbols(*first_symbols as usize), Symbols(*second_symbols as usize));
            let join = |first, second| cotelark::join(&first, a, &second, b).map(components);
            put(joined, signature(*first_n, first).and_then(|first| join(first, signature(*second_n, second)?)))
        }
        Call::Edit { n, signature: page, at_symbol, old_piece, new_piece, edited } => {
            let edit = |page| cotelark::edit(&page, Symbols(*at_symbol as usize), old_piece, new_piece).map(components);
            put(edited, signature(*n, page).and_then(edit))
        }
        Call::MakeMap { n, page_bytes, bucket, output, value } => {
            tell([value], cotelark::make_map(*n as usize, Bytes(*page_bytes as usize), bucket, output).map(|map| [map.len() as u64]))
        }
        Call::ReadMap { map, n, page_bytes, bucket_bytes, pages, value } => {
            let sizes = cotelark::read_map(map).map(|sizes| [0, sizes.n, sizes.page.0, sizes.bucket.0, sizes.pages].map(|number| number as u64));
            tell([value, n, page_bytes, bucket_bytes, pages], sizes)
        }
        Call::ListMap { map, output, value } => tell([value], cotelark::list_map(map, output).map(|text| [text.len() as u64])),
        Call::Store { table, image, map, list, value } => {
            let mut numbers: Vec<usize> = list.iter().map(|&number| number as usize).collect();
            let written = cotelark::store(table, image, map, &mut numbers).map(|written| [written.len() as u64]);
            *list = numbers.into_iter().map(|number| number as u64).collect();
            tell([value], written)
        }
        Call::Step { place, table, image, map, answer, value } => {
            let mut at = Place::at(*place as usize);
            let step = at.step(table, image, map);
            *place = at.page() as u64;
            let (told, page) = numbers_of_step(&step);
            *answer = told;
            tell([value], step.map(|_| [page]))
        }
        Call::LoadPage { image, map, page, start, bytes, value } => {
            let part = cotelark::load_page(image, map, *page as usize);
            let place = |part: &[u8]| [0, part.as_ptr() as u64 - image.as_ptr() as u64, part.len() as u64];
            tell([value, start, bytes], part.map(place))
        }
        Call::AskPage { image, map, page, value } => tell([value], cotelark::ask_page(image, map, *page as usize).map(|()| [0])),
        Call::LoadBucket { image, map, table, value } => tell([value], cotelark::load_bucket(image, map, table).map(|bytes| [bytes.0 as u64])),
        Call::RepairPage { image, map, page, answer, position, old_symbol, new_symbol, marked, value } => {
            let repair = cotelark::repair_page(image, map, *page as usize);
            (*answer, *position, *old_symbol, *new_symbol, *marked) = numbers_of_repair(&repair);
            tell([value], repair.map(|_| [0]))
        }
        Call::Encode { plain, output, value } => tell([value], cotelark::encode(plain, output).map(|code| [code.len() as u64])),
        Call::Decode { code, output, value } => tell([value], cotelark::decode(code, output).map(|plain| [plain.len() as u64])),
        Call::Search { code, pattern, list, value } => {
            let mut places: Vec<Symbols> = list.iter().map(|&number| Symbols(number as usize)).collect();
            let found = cotelark::search(code, pattern, &mut places).map(|found| [found.len() as u64]);
            *list = places.into_iter().map(|place| place.0 as u64).collect();
            tell([value], found)
        }
    }
}

/// The first n components as a signature; five, which are refused, stand for any number above four.
fn signature(n: u64, components: &[u16; 4]) -> Result<Signature, Refusal> {
    Signature::new(components.get(..n.min(5) as usize).unwrap_or(&[0; 5]))
}

fn components(signature: Signature) -> [u16; 4] {
    std::array::from_fn(|index| signature.components().get(index).copied().unwrap_or(0))
}

/// The answer of a step, and the page that it names.
fn numbers_of_step(step: &Result<Step, Refusal>) -> (u32, u64) {
    match *step {
        Ok(Step::Kept(page)) => (KEPT, page as u64),
        Ok(Step::Written(page)) => (WRITTEN, page as u64),
        Ok(Step::Finished) => (FINISHED, 0),
        Err(_) => (REFUSED, 0),
    }
}

/// The answer of a repair, the symbol's position, its old and new value, and the mark.
fn numbers_of_repair(repair: &Result<Repair, Refusal>) -> (u32, u64, u16, u16, u32) {
    match *repair {
        Ok(Repair::Whole) => (WHOLE, 0, 0, 0, 0),
        Ok(Repair::Repaired { position, old, new, marked }) => (REPAIRED, position.0 as u64, old, new, u32::from(marked)),
        Ok(Repair::Beyond) => (BEYOND, 0, 0, 0, 0),
        Err(_) => (REFUSED, 0, 0, 0, 0),
    }
}
