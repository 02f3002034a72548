//! Compares two programs for the scope's rules, call by call: the library, through its C interface and through its Rust
//! interface, and the second program.

pub mod call;
pub mod dice;
pub mod generate;
pub mod handed;
pub mod hunt;
pub mod library;
pub mod memory;
pub mod part;
pub mod run;
pub mod second_program;
pub mod shrink;
pub mod told;
pub mod wrapper;

use call::{common_outcome, Call, Outcome, Program};
use hunt::Case;
use library::Library;
use second_program::Second;
use wrapper::Wrapper;

/// What both programs make of a call, the library through either of its interfaces; if they differ, the test fails with the
/// smallest call on which they do.
pub fn both(call: &Call) -> Outcome {
    agreed(&Wrapper, call);
    agreed(&Library, call)
}

fn agreed(library: &dyn Program, call: &Call) -> Outcome {
    common_outcome(library, &Second, call).unwrap_or_else(|_| panic!("{}", Case::Call(call.clone()).smallest(library, &Second)))
}

/// Has both programs turn down a call with this number and value.
pub fn refused(call: &Call, number: u32, value: u64) {
    let outcome = both(call);
    assert_eq!((outcome.status, outcome.after.value()), (number, value), "{call}");
}

/// Has both programs carry out a call, and gives what it left.
pub fn done(call: &Call) -> Call {
    let outcome = both(call);
    assert_eq!(outcome.status, 0, "{call}");
    outcome.after
}

/// The signature that a sign, join or edit gives.
pub fn signature(call: &Call) -> [u16; 4] {
    match done(call) {
        Call::Sign { signature, .. } => signature,
        Call::Join { joined, .. } => joined,
        Call::Edit { edited, .. } => edited,
        other => panic!("{other}"),
    }
}

/// Case 12 of the scope: a bucket of two pages of 4 bytes, the last one short, and its map with n = 2.
pub const BUCKET: [u8; 6] = [1, 0, 2, 0, 3, 0];
pub const ITS_MAP: [u8; 32] = [1, 1, 0, 2, 2, 4, 0, 4, 0, 0, 0, 3, 4, 0, 6, 0, 0, 0, 4, 4, 0, 5, 0, 9, 0, 4, 4, 0, 3, 0, 3, 0];
