//! The hunt for a difference: random calls and runs, and the smallest input that shows what was found.

use crate::call::{difference, Call, Program};
use crate::dice::Dice;
use crate::generate;
use crate::run::{difference_in_run, Run};
use crate::shrink::{smallest_call, smallest_run};
use std::fmt;

/// What a case tries.
#[derive(Clone, Debug, PartialEq)]
pub enum Case {
    Call(Call),
    Run(Run),
}

impl Case {
    /// The case of this number under a seed: a call, or, one time in eight, a run.
    pub fn new(seed: u64, number: u64) -> Case {
        let mut dice = Dice::new(Dice::new(seed ^ number.rotate_left(32)).number());
        if number % 8 == 7 {
            Case::Run(generate::run(&mut dice))
        } else {
            Case::Call(generate::call(&mut dice))
        }
    }

    pub fn difference(&self, one: &dyn Program, other: &dyn Program) -> Option<String> {
        match self {
            Case::Call(call) => difference(one, other, call),
            Case::Run(run) => difference_in_run(one, other, run),
        }
    }

    /// The smallest case that can be found from this one on which the programs still differ.
    pub fn smallest(&self, one: &dyn Program, other: &dyn Program) -> Finding {
        let smallest = match self {
            Case::Call(call) => Case::Call(smallest_call(call, one, other)),
            Case::Run(run) => Case::Run(smallest_run(run, one, other)),
        };
        let mut difference = smallest.difference(one, other).unwrap_or_default();
        if let Case::Call(call) = &smallest {
            for program in [one, other] {
                difference += &format!("\noutcome of {}: {}", program.name(), program.run(call));
            }
        }
        Finding { smallest, difference }
    }
}

/// The smallest case that shows a difference, and how the programs differ there.
#[derive(Debug)]
pub struct Finding {
    pub smallest: Case,
    pub difference: String,
}

impl fmt::Display for Finding {
    fn fmt(&self, out: &mut fmt::Formatter<'_>) -> fmt::Result {
        match &self.smallest {
            Case::Call(call) => write!(out, "the smallest call that differs: {call}\n{}", self.difference),
            Case::Run(run) => write!(out, "the smallest run that differs: {run}\n{}", self.difference),
        }
    }
}

/// Tries the cases of a seed in turn, up to the first on which the programs differ.
pub fn hunt(one: &dyn Program, other: &dyn Program, seed: u64, mut numbers: impl Iterator<Item = u64>) -> Option<Finding> {
    let differing = numbers.find_map(|number| Some(Case::new(seed, number)).filter(|case| case.difference(one, other).is_some()));
    differing.map(|case| case.smallest(one, other))
}
