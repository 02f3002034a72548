//! The checker is checked: programs that are wrong on purpose must be found by the random cases, and shown by the
//! smallest input.

use compare::call::{difference, Call, Outcome, Program};
use compare::dice::Dice;
use compare::generate;
use compare::hunt::{hunt, Case, Finding};
use compare::library::{BEYOND, KEPT, REPAIRED, ROOM, WHOLE, WRITTEN};
use compare::part::Part;
use compare::run::{Kind, Run};
use compare::second_program::Second;
use compare::{handed, BUCKET, ITS_MAP};
use std::collections::BTreeSet;

/// The second program with what comes out of it altered.
struct Wrong(fn(&Call, &mut Outcome));

impl Program for Wrong {
    fn name(&self) -> String {
        "wrong".to_string()
    }

    fn run(&self, call: &Call) -> Outcome {
        let mut outcome = Second.run(call);
        self.0(call, &mut outcome);
        outcome
    }
}

const ENOUGH: u64 = 100_000;

/// The smallest call by which the random cases show a wrong program.
fn smallest_call(alter: fn(&Call, &mut Outcome)) -> Call {
    let calls = (0..ENOUGH).filter(|number| number % 8 != 7);
    let Some(Finding { smallest: Case::Call(call), .. }) = hunt(&Wrong(alter), &Second, 1, calls) else { panic!("no call shows it") };
    call
}

/// The smallest run by which they show one of two programs, or both, to be wrong.
fn smallest_run(one: &dyn Program, other: &dyn Program) -> Run {
    let runs = (0..ENOUGH).filter(|number| number % 8 == 7);
    let Some(Finding { smallest: Case::Run(run), .. }) = hunt(one, other, 1, runs) else { panic!("no run shows it") };
    run
}

#[test]
fn a_search_that_loses_its_last_place() {
    let smallest = smallest_call(|before, outcome| match (&mut outcome.after, before) {
        (Call::Search { list, value, .. }, Call::Search { list: untouched, .. }) if outcome.status == 0 && *value > 0 => {
            *value -= 1;
            list[*value as usize] = untouched[*value as usize];
        }
        _ => (),
    });
    assert_eq!(smallest, Call::Search { code: vec![0; 2], pattern: vec![0; 2], list: vec![0], value: 0 });
}

#[test]
fn a_refusal_with_the_wrong_value() {
    let smallest = smallest_call(|_, outcome| {
        let Call::MakeMap { value, .. } = &mut outcome.after else { return };
        *value -= u64::from(outcome.status == ROOM);
    });
    assert_eq!(smallest, Call::MakeMap { n: 1, page_bytes: 2, bucket: vec![], output: vec![], value: 0 });
}

#[test]
fn a_refusal_that_leaves_a_number_as_it_was() {
    let smallest = smallest_call(|before, outcome| match (&mut outcome.after, before) {
        (Call::LoadPage { start, .. }, Call::LoadPage { start: untouched, .. }) if outcome.status != 0 => *start = *untouched,
        _ => (),
    });
    let Call::LoadPage { image, map, page: 0, start: 1, bytes: 0, value: 0 } = smallest else { panic!("{smallest}") };
    assert_eq!((image.len(), map.len()), (0, 0));
}

#[test]
fn a_store_that_writes_a_page_and_past_its_list() {
    let smallest = smallest_call(|_, outcome| {
        let Call::Store { list, value, .. } = &mut outcome.after else { return };
        if outcome.status == 0 && *value > 0 && list.len() as u64 > *value {
            list[*value as usize] ^= 1;
        }
    });
    let Call::Store { table, image, map, list, .. } = smallest else { panic!("{smallest}") };
    assert_eq!((table.len(), image.len(), map.len(), list.len()), (1, 1, 23, 2));
}

#[test]
fn a_repair_without_its_mark() {
    let smallest = smallest_call(|_, outcome| {
        let Call::RepairPage { marked, .. } = &mut outcome.after else { return };
        *marked = 0;
    });
    let Call::RepairPage { image, map, page: 0, .. } = smallest else { panic!("{smallest}") };
    assert_eq!((image.len(), map.len()), (3, 25));
    assert_eq!(image.iter().filter(|&&byte| byte != 0).count(), 1);
}

#[test]
fn a_page_beyond_repair_that_is_changed_all_the_same() {
    let smallest = smallest_call(|_, outcome| {
        let Call::RepairPage { image, answer: BEYOND, .. } = &mut outcome.after else { return };
        image[0] ^= 1;
    });
    let Call::RepairPage { image, map, page: 0, .. } = smallest else { panic!("{smallest}") };
    assert_eq!((image.len(), map.len()), (3, 25));
}

#[test]
fn a_changed_guard_byte() {
    let smallest = smallest_call(|call, outcome| {
        let Call::Encode { plain, .. } = call else { return };
        outcome.guards_kept = outcome.status != 0 || plain.len() < 4;
    });
    assert_eq!(smallest, Call::Encode { plain: vec![0; 4], output: vec![0; 4], value: 0 });
}

#[test]
fn a_changed_input_byte() {
    let smallest = smallest_call(|_, outcome| {
        let Call::Sign { object, .. } = &mut outcome.after else { return };
        object.iter_mut().skip(2).for_each(|byte| *byte ^= 1);
    });
    assert_eq!(smallest, Call::Sign { n: 0, object: vec![0; 3], signature: [0; 4] });
}

#[test]
fn the_same_trespass_by_both_is_a_difference_too() {
    let call = handed::store(&BUCKET, &BUCKET, &ITS_MAP, 1);
    assert_eq!(difference(&Second, &Second, &call), None);
    let guard: fn(&Call, &mut Outcome) = |_, outcome| outcome.guards_kept = false;
    let input = |_: &Call, outcome: &mut Outcome| outcome.after.parts_mut()[0].set(&[9; 6]);
    let list_of_a_refused_call = |_: &Call, outcome: &mut Outcome| outcome.after.parts_mut()[3].set(&[9; 8]);
    for trespass in [guard, input, list_of_a_refused_call] {
        assert!(difference(&Wrong(trespass), &Wrong(trespass), &call).is_some());
    }
}

/// A single change of the table and a single call.
fn assert_one_edit_and_one_call(run: &Run, calls: &[Kind]) {
    let kinds: Vec<Kind> = run.acts.iter().map(|act| act.kind).collect();
    assert!(matches!(kinds[..], [Kind::EditByte | Kind::EditPage | Kind::EditSymbols, last] if calls.contains(&last)), "{run}");
    assert_eq!((run.n, run.page_bytes, run.table.len()), (1, 2, 1), "{run}");
}

#[test]
fn a_store_that_updates_the_entry_but_not_the_page() {
    let wrong = Wrong(|before, outcome| {
        if let (Call::Store { image, .. }, Call::Store { image: old, .. }) = (&mut outcome.after, before) {
            image.clone_from(old);
        }
    });
    assert_one_edit_and_one_call(&smallest_run(&wrong, &Second), &[Kind::Store]);
}

#[test]
fn a_step_that_claims_to_have_kept_the_page() {
    let wrong = Wrong(|_, outcome| {
        if let Call::Step { answer: answer @ WRITTEN, .. } = &mut outcome.after {
            *answer = KEPT;
        }
    });
    assert_one_edit_and_one_call(&smallest_run(&wrong, &Second), &[Kind::Step, Kind::Store]);
}

#[test]
fn two_programs_that_agree_on_steps_that_never_write_an_entry() {
    let forgetful = Wrong(|before, outcome| {
        if let (Call::Step { map, .. }, Call::Step { map: old, .. }) = (&mut outcome.after, before) {
            map.clone_from(old);
        }
    });
    assert_one_edit_and_one_call(&smallest_run(&forgetful, &forgetful), &[Kind::Store]);
}

#[test]
fn two_programs_that_agree_on_a_store_that_does_nothing() {
    let idle = Wrong(|before, outcome| {
        if let (Call::Store { table, image, map, list, .. }, 0) = (before.clone(), outcome.status) {
            outcome.after = Call::Store { table, image, map, list, value: 0 };
        }
    });
    assert_one_edit_and_one_call(&smallest_run(&idle, &idle), &[Kind::Store]);
}

/// An empty buffer or list, or only zeros.
fn is_nothing(part: &dyn Part) -> bool {
    part.values().iter().all(|&value| value == 0 && !part.elastic())
}

#[test]
fn an_input_that_always_differs_shrinks_to_nothing() {
    let trespasser = Wrong(|_, outcome| outcome.guards_kept = false);
    for number in 0..400 {
        match Case::new(1, number).smallest(&trespasser, &Second).smallest {
            Case::Call(call) => assert!(call.parts().iter().all(|(.., part)| is_nothing(*part)), "{call}"),
            Case::Run(run) => assert_eq!(run, Run { n: 0, page_bytes: 0, table: vec![], acts: vec![] }),
        }
    }
}

#[test]
fn random_calls_meet_every_answer_of_every_operation() {
    let mut dice = Dice::new(1);
    let calls = (0..50_000).map(|_| generate::call(&mut dice));
    let met: BTreeSet<(&str, u32)> = calls.map(|call| (call.operation(), Second.run(&call).status)).collect();
    let answers: [(&str, &[u32]); 15] = [
        ("Sign", &[0, 1, 3]),
        ("Join", &[0, 1, 3, 6]),
        ("Edit", &[0, 1, 3, 4, 6]),
        ("MakeMap", &[0, 1, 2, 3, 7]),
        ("ReadMap", &[0, 5]),
        ("ListMap", &[0, 7]),
        ("Store", &[0, 5, 6, 7]),
        ("Step", &[0, 5, 6, 9]),
        ("LoadPage", &[0, 5, 6, 9, 10]),
        ("AskPage", &[0, 5, 6, 9, 10]),
        ("LoadBucket", &[0, 5, 6, 10]),
        ("RepairPage", &[0, 5, 6, 9, 14]),
        ("Encode", &[0, 3, 4, 7]),
        ("Decode", &[0, 3, 4, 7]),
        ("Search", &[0, 3, 4, 7, 8]),
    ];
    let due = answers.iter().flat_map(|(operation, answers)| answers.iter().map(|answer| (*operation, *answer)));
    assert_eq!(met, due.collect());
}

#[test]
fn random_repairs_meet_every_answer_with_each_n() {
    let mut dice = Dice::new(1);
    let mut met = BTreeSet::new();
    for call in (0..50_000).map(|_| generate::call(&mut dice)) {
        if let Outcome { status: 0, after: Call::RepairPage { map, answer, marked, .. }, .. } = Second.run(&call) {
            met.insert((map[3], answer, marked));
        }
    }
    let answers = |n: u8| [(n, WHOLE, 0), (n, REPAIRED, u32::from(n == 2)), (n, BEYOND, 0)];
    assert_eq!(met, [2, 3, 4].into_iter().flat_map(answers).collect());
}
