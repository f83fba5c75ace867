//! The soak: many calls of each kind, random, damaged and lying, the archive against the second
//! implementation, with buffers against guard pages. It prints a line every few seconds, and at the
//! end cases a second and differences.

mod requests;

use crate::harness::caller::Caller;
use crate::harness::random::Random;
use crate::harness::report::{exit_code, Test, TRACED};
use crate::second::Second;
use requests::{Kind, KINDS};
use std::path::Path;
use std::process::ExitCode;
use std::time::{Duration, Instant};

/// A case makes its call at least twice, against the guard before and against the one behind.
const CALLS_OF_A_CASE: usize = 2;

const PROGRESS: Duration = Duration::from_secs(10);

/// The arguments behind the tables: how many calls of each kind, the seed, and whether every case is
/// printed before its calls.
pub fn run(tables: &str, rest: &[String]) -> Option<ExitCode> {
    let (calls, seed, traced) = match rest {
        [calls, seed] => (calls, seed, false),
        [calls, seed, how] if how == TRACED => (calls, seed, true),
        _ => return None,
    };
    let cases = calls.parse::<usize>().ok()?.div_ceil(CALLS_OF_A_CASE);
    let seed = seed.parse().ok()?;
    let second = Second::read(Path::new(tables));
    let start = Instant::now();
    let differences: usize = KINDS
        .iter()
        .map(|kind| soak(&second, kind, cases, seed, traced))
        .sum();
    let all = cases * KINDS.len();
    let speed = per_second(all, start);
    println!("all kinds: {all} cases, seed {seed}, {speed} a second, {differences} differences");
    Some(exit_code(all > 0 && differences == 0))
}

/// Runs the cases of one kind and answers how many differ.
fn soak(second: &Second, kind: &Kind, cases: usize, seed: u64, traced: bool) -> usize {
    let (name, make_case) = kind;
    let mut test = Test::new(traced);
    let mut caller = Caller::with_read_only_input(&mut test);
    let mut random = Random::from_seed(seed);
    let start = Instant::now();
    let mut shown = start;
    for made in 1..=cases {
        make_case(second, &mut random, &mut caller);
        if shown.elapsed() > PROGRESS || made == cases {
            shown = Instant::now();
            let (speed, differences) = (per_second(made, start), caller.test.failed());
            println!(
                "{name}: {made} of {cases} cases, {speed} a second, {differences} differences"
            );
        }
    }
    assert_eq!(test.cases(), cases, "a case of {name} was not counted");
    test.failed()
}

fn per_second(cases: usize, start: Instant) -> u64 {
    (cases as f64 / start.elapsed().as_secs_f64()) as u64
}
