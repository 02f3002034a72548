//! `fuzz [SEED [COUNT]]`: tries random cases on the library and the second program until they differ, without end or up
//! to a count. It ends with status 1 at a difference, 0 when the count is reached.

use compare::hunt::hunt;
use compare::library::Library;
use compare::second_program::Second;
use std::process::ExitCode;
use std::time::{Duration, Instant, SystemTime, UNIX_EPOCH};

const PROGRESS: Duration = Duration::from_secs(5);

fn main() -> ExitCode {
    let numbers: Option<Vec<u64>> = std::env::args().skip(1).map(|argument| argument.parse().ok()).collect();
    let Some(numbers) = numbers.filter(|numbers| numbers.len() <= 2) else {
        eprintln!("fuzz [SEED [COUNT]], both decimal numbers");
        return ExitCode::from(2);
    };
    let seed = numbers.first().copied().unwrap_or_else(seed_of_the_clock);
    println!("seed {seed}");
    match hunt(&Library, &Second, seed, reported(numbers.get(1).copied().unwrap_or(u64::MAX))) {
        Some(finding) => {
            println!("{finding}");
            ExitCode::FAILURE
        }
        None => ExitCode::SUCCESS,
    }
}

fn seed_of_the_clock() -> u64 {
    SystemTime::now().duration_since(UNIX_EPOCH).map_or(0, |since| since.as_nanos() as u64)
}

/// The numbers of the cases, with a line now and then on how far they are.
fn reported(count: u64) -> impl Iterator<Item = u64> {
    let mut last = Instant::now();
    (0..count).inspect(move |case| {
        if last.elapsed() >= PROGRESS {
            println!("{case} cases without a difference");
            last = Instant::now();
        }
    })
}
