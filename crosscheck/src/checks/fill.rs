//! The tests of the fill that a step passes over (document 02, K1): runs of 81s of many lengths, each
//! with all that may stand behind them, and runs far longer than a stack is deep.

use crate::harness::archive;
use crate::harness::caller::Caller;
use crate::harness::report::{named_tests, Given, NamedTest, Test};
use crate::harness::requests::messages::{numbers, stepped, Numbers, StepMessage};
use crate::harness::small_stack::on_a_small_stack;
use crate::second::messages::step;
use crate::second::Second;
use std::iter;

pub const TESTS: &[NamedTest] = named_tests![
    second_passes_over_runs_of_81,
    archive_passes_over_runs_of_81,
    archive_passes_over_16_mib_on_a_small_stack,
];

/// What stands behind a run of 81s, and what a step that passes over the run answers.
type Ending = (&'static [u8], Numbers);

/// The endings behind a run, and what is answered where they start at this place.
fn endings(start: usize) -> [Ending; 13] {
    [
        (&[], [0, 0, 0, 0]),
        (&[74, 0, 7, 0, 0, 0, 1], [0, start, 7, 0]),
        (&[74, 0, 8, 0, 0, 0, 1, 81, 81], [0, start, 8, 0]),
        (&[0], [0, 0, 0, 0]),
        (&[0, 0, 0], [0, 0, 0, 0]),
        (&[0, 81], [10, 0, 0, 0]),
        (&[0, 7], [10, 0, 0, 0]),
        (&[0, 74, 0, 7, 0, 0, 0, 1], [10, 0, 0, 0]),
        (&[74], [11, start, 0, 0]),
        (&[74, 0], [11, start, 0, 0]),
        (&[74, 0, 6, 0, 0, 0, 1], [9, start, 0, 0]),
        (&[74, 0, 8, 0, 0, 0, 1], [12, start, 0, 1]),
        (&[74, 3, 132, 0, 0, 0, 1, 0, 0, 0, 0], [12, start, 0, 889]),
    ]
}

/// The longest of the runs that are stepped into at every position.
const LONGEST: usize = 300;

fn datagram_of(run: usize, ending: &[u8]) -> Vec<u8> {
    [&vec![81; run][..], ending].concat()
}

fn second_passes_over_runs_of_81(_: &Given, test: &mut Test) {
    for run in 0..=LONGEST {
        for (ending, answer) in endings(run) {
            let datagram = datagram_of(run, ending);
            for position in 0..=run {
                let call = || format!("step at {position}, {run} bytes 81 and {ending:?}");
                test.case(call, answer, [numbers(step(&datagram, position))]);
            }
        }
    }
}

/// From every position of the run, and from those behind it up to one past the end.
fn archive_passes_over_runs_of_81(given: &Given, test: &mut Test) {
    let second = Second::read(&given.tables);
    let mut caller = Caller::new(test);
    for run in 0..=LONGEST {
        for (ending, answer) in endings(run) {
            let datagram = datagram_of(run, ending);
            for position in 0..=run {
                caller.expect(StepMessage(&datagram, position), answer);
            }
            for position in run + 1..=datagram.len() + 1 {
                caller.compare(&second, StepMessage(&datagram, position));
            }
        }
    }
}

fn archive_passes_over_16_mib_on_a_small_stack(_: &Given, test: &mut Test) {
    let run = 16 << 20;
    for (ending, answer) in endings(run) {
        let mut datagram = datagram_of(run, ending);
        let call = || format!("step at 0, {run} bytes 81 and {ending:?}, 64 KiB of stack");
        let step = || archive::step_message(&mut datagram, 0);
        let calls = iter::once_with(|| on_a_small_stack(step));
        test.case(call, stepped(answer), calls);
    }
}
