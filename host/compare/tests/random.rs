//! Random calls and runs from fixed seeds, long buckets among them, and the program that tries them without end.

use compare::dice::Dice;
use compare::hunt::hunt;
use compare::library::Library;
use compare::run::{difference_in_run, Act, Kind, Run};
use compare::second_program::Second;
use compare::wrapper::Wrapper;
use compare::{handed, signature};
use std::process::Command;

/// About half a minute of a slow core.
const CASES: u64 = 1_000_000;

#[test]
fn random_cases() {
    if let Some(finding) = hunt(&Library, &Second, 2_004, 0..CASES) {
        panic!("{finding}");
    }
}

#[test]
fn random_cases_through_the_rust_interface() {
    if let Some(finding) = hunt(&Wrapper, &Second, 2_026, 0..CASES / 4) {
        panic!("{finding}");
    }
}

#[test]
fn long_runs() {
    let kinds = [Kind::EditSymbols, Kind::EditByte, Kind::Store, Kind::EditPage, Kind::Store, Kind::LoadPage, Kind::LoadBucket];
    for (n, page_bytes, bytes) in [(1, 65_536, 16_777_216), (2, 4_096, 16_777_215), (3, 16_384, 16_000_001), (4, 4_098, 9_000_000)] {
        let mut dice = Dice::new(n);
        let table = dice.any_bytes(bytes);
        let acts = kinds.map(|kind| Act { kind, at: dice.below(240), with: dice.number() }).to_vec();
        assert_eq!(difference_in_run(&Library, &Second, &Run { n, page_bytes, table, acts }), None);
    }
}

#[test]
fn joins_and_edits_equal_fresh_signatures() {
    let mut dice = Dice::new(3);
    for round in 0..2_000 {
        let n = 1 + dice.below(4);
        let symbols = dice.below(if round % 100 == 0 { 65_535 } else { 60 });
        let mut page = dice.bytes(2 * symbols as usize);
        let split = dice.below(symbols + 1);
        let (first, second) = page.split_at(2 * split as usize);
        let whole = signature(&handed::sign(n, &page));
        let parts = [first, second].map(|part| signature(&handed::sign(n, part)));
        assert_eq!(signature(&handed::join((n, parts[0], split), (n, parts[1], symbols - split))), whole);
        let old = page.split_off(2 * split as usize);
        let new = dice.bytes(old.len());
        let edited = signature(&handed::edit(n, whole, split, &old, &new));
        page.extend(new);
        assert_eq!(signature(&handed::sign(n, &page)), edited);
    }
}

#[test]
fn the_fuzz_program_counts_and_ends() {
    let fuzz = |arguments: &[&str]| Command::new(env!("CARGO_BIN_EXE_fuzz")).args(arguments).output().expect("it starts");
    let ended = fuzz(&["7", "5000"]);
    assert_eq!((ended.status.code(), &ended.stdout[..]), (Some(0), &b"seed 7\n"[..]));
    assert_eq!(fuzz(&["seven"]).status.code(), Some(2));
}
