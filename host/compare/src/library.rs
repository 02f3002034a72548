//! The library, called through its C interface; nothing outside this file is unsafe.

use crate::call::{Call, Outcome, Program};
use crate::memory::Loan;
use cotelark_sys::*;

pub use cotelark_sys::{
    COTELARK_DAMAGED as DAMAGED, COTELARK_EMPTY as EMPTY, COTELARK_LONG as LONG, COTELARK_MAP as MAP, COTELARK_MATCH as MATCH, COTELARK_ODD as ODD,
    COTELARK_PAGE as PAGE, COTELARK_PAGENO as PAGENO, COTELARK_ROOM as ROOM, COTELARK_SIZE as SIZE, COTELARK_THIN as THIN,
};
pub use cotelark_sys::{COTELARK_REPAIR_BEYOND as BEYOND, COTELARK_REPAIR_REPAIRED as REPAIRED, COTELARK_REPAIR_WHOLE as WHOLE};
pub use cotelark_sys::{COTELARK_STEP_FINISHED as FINISHED, COTELARK_STEP_KEPT as KEPT, COTELARK_STEP_WRITTEN as WRITTEN};

/// The answer of a refused step, and of a refused repair.
pub const REFUSED: u32 = 0;
const _: () = assert!(REFUSED == COTELARK_STEP_REFUSED && REFUSED == COTELARK_REPAIR_REFUSED);

/// Writes out a C call: a `number` is handed over by value, a `pointer` alone, a `buffer` as pointer and length.
macro_rules! c_call {
    ($lent:ident $function:ident($($argument:expr,)*) number $part:ident $($rest:tt)*) => {
        c_call!($lent $function($($argument,)* *$part as usize,) $($rest)*)
    };
    ($lent:ident $function:ident($($argument:expr,)*) pointer $part:ident $($rest:tt)*) => {
        c_call!($lent $function($($argument,)* $lent.at(stringify!($part)),) $($rest)*)
    };
    ($lent:ident $function:ident($($argument:expr,)*) buffer $part:ident $($rest:tt)*) => {
        c_call!($lent $function($($argument,)* $lent.at(stringify!($part)), $part.len(),) $($rest)*)
    };
    ($lent:ident $function:ident($($argument:expr,)*)) => {
        // Sound: each pointer is to memory of the loan's own, as long as is said and aligned, and no two overlap.
        unsafe { $function($($argument),*) }
    };
}

/// The library.
pub struct Library;

impl Program for Library {
    fn name(&self) -> String {
        "library".to_string()
    }

    fn run(&self, call: &Call) -> Outcome {
        let mut loan = Loan::of(call);
        let status = hand_over(call, &mut loan);
        Outcome { status, after: loan.returned(call), guards_kept: loan.guards_kept() }
    }
}

/// Calls the function that belongs to the call, on the memory that was lent.
fn hand_over(call: &Call, lent: &mut Loan) -> u32 {
    match call {
        Call::Sign { n, object, .. } => c_call!(lent cotelark_sign() number n buffer object pointer signature),
        Call::Join { first_n, first_symbols, second_n, second_symbols, .. } => c_call!(lent cotelark_join()
            number first_n pointer first number first_symbols
            number second_n pointer second number second_symbols pointer joined),
        Call::Edit { n, at_symbol, old_piece, new_piece, .. } => c_call!(lent cotelark_edit()
            number n pointer signature number at_symbol buffer old_piece buffer new_piece pointer edited),
        Call::MakeMap { n, page_bytes, bucket, output, .. } => c_call!(lent cotelark_make_map()
            number n number page_bytes buffer bucket buffer output pointer value),
        Call::ReadMap { map, .. } => c_call!(lent cotelark_read_map()
            buffer map pointer n pointer page_bytes pointer bucket_bytes pointer pages pointer value),
        Call::ListMap { map, output, .. } => c_call!(lent cotelark_list_map() buffer map buffer output pointer value),
        Call::Store { table, image, map, list, .. } => c_call!(lent cotelark_store()
            buffer table buffer image buffer map buffer list pointer value),
        Call::Step { table, image, map, .. } => c_call!(lent cotelark_step()
            pointer place buffer table buffer image buffer map pointer answer pointer value),
        Call::LoadPage { image, map, page, .. } => c_call!(lent cotelark_load_page()
            buffer image buffer map number page pointer start pointer bytes pointer value),
        Call::AskPage { image, map, page, .. } => c_call!(lent cotelark_ask_page()
            buffer image buffer map number page pointer value),
        Call::LoadBucket { image, map, table, .. } => c_call!(lent cotelark_load_bucket()
            buffer image buffer map buffer table pointer value),
        Call::RepairPage { image, map, page, .. } => c_call!(lent cotelark_repair_page()
            buffer image buffer map number page
            pointer answer pointer position pointer old_symbol pointer new_symbol pointer marked pointer value),
        Call::Encode { plain, output, .. } => c_call!(lent cotelark_encode() buffer plain buffer output pointer value),
        Call::Decode { code, output, .. } => c_call!(lent cotelark_decode() buffer code buffer output pointer value),
        Call::Search { code, pattern, list, .. } => c_call!(lent cotelark_search()
            buffer code buffer pattern buffer list pointer value),
    }
}
