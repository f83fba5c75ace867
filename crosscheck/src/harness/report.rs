//! Named tests, their cases and failures. Each test runs in a process of its own, so that a call
//! that touches memory it was not lent fails its test and not the whole run.

use crate::harness::random::Random;
use std::any::Any;
use std::collections::BTreeMap;
use std::fmt::Debug;
use std::panic::{self, AssertUnwindSafe};
use std::path::PathBuf;
use std::process::{Command, ExitCode, Output, Stdio};
use std::sync::atomic::{AtomicUsize, Ordering};
use std::sync::mpsc::{self, Receiver, Sender};
use std::thread::{self, available_parallelism};

const FAILURES_SHOWN: usize = 5;

/// The argument behind a test's name that has it traced.
pub const TRACED: &str = "traced";

pub type NamedTest = (&'static str, fn(&Given, &mut Test));

/// The functions as tests that bear their names.
macro_rules! named_tests {
    [$($test:ident),* $(,)?] => { &[$((stringify!($test), $test)),*] };
}
pub(crate) use named_tests;

/// What the caller of the cross-check names: the printed tables, the built printer and the built
/// command line tool.
pub struct Given {
    pub tables: PathBuf,
    pub printer: PathBuf,
    pub tool: PathBuf,
}

impl Given {
    pub fn new(tables: &str, printer: &str, tool: &str) -> Given {
        Given {
            tables: PathBuf::from(tables),
            printer: PathBuf::from(printer),
            tool: PathBuf::from(tool),
        }
    }
}

/// A running test: the count of its cases and of those that failed. A traced one prints every case
/// before it makes the calls.
pub struct Test {
    cases: usize,
    failed: usize,
    traced: bool,
}

impl Test {
    pub fn new(traced: bool) -> Test {
        Test {
            cases: 0,
            failed: 0,
            traced,
        }
    }

    pub fn cases(&self) -> usize {
        self.cases
    }

    pub fn failed(&self) -> usize {
        self.failed
    }

    /// One case. Its calls are made one after another, up to the first that does not show what is
    /// expected.
    pub fn case<T: Debug + PartialEq>(
        &mut self,
        call: impl Fn() -> String,
        expected: T,
        calls: impl IntoIterator<Item = T>,
    ) {
        self.cases += 1;
        if self.traced {
            println!("     call     {}", call());
        }
        let mut made = 0;
        for got in calls {
            made += 1;
            if got != expected {
                let call = format!("{}, call {made} of the case", call());
                self.fail(&call, &expected, &got);
                return;
            }
        }
        assert!(made > 0, "a case without a call: {}", call());
    }

    fn fail(&mut self, call: &str, expected: &dyn Debug, got: &dyn Debug) {
        self.failed += 1;
        if self.failed <= FAILURES_SHOWN {
            println!("     call     {call}");
            println!("     expected {expected:?}");
            println!("     got      {got:?}");
        }
    }

    /// The numbers of a random test, with their seed printed.
    pub fn random(&self, seed: u64) -> Random {
        println!("     seed {seed}");
        Random::from_seed(seed)
    }
}

/// What a test's own process reported, and whether it passed.
struct Report {
    text: String,
    passed: bool,
}

/// Runs the tests, as many at a time as there are processors, prints their reports in order and then
/// the two totals.
pub fn run_all(tests: &[NamedTest], given: &Given) -> ExitCode {
    let (next, at_once) = (AtomicUsize::new(0), available_parallelism());
    let (sender, reports) = mpsc::channel();
    let passed = thread::scope(|scope| {
        for _ in 0..at_once.map_or(1, usize::from) {
            let (next, sender) = (&next, sender.clone());
            scope.spawn(move || run_next(tests, given, next, sender));
        }
        drop(sender);
        print_in_order(reports)
    });
    let failed = tests.len() - passed;
    println!("{passed} passed, {failed} failed");
    exit_code(failed == 0 && passed > 0)
}

/// Takes the next test that nobody has taken, until there is none.
fn run_next(
    tests: &[NamedTest],
    given: &Given,
    next: &AtomicUsize,
    sender: Sender<(usize, Report)>,
) {
    loop {
        let place = next.fetch_add(1, Ordering::Relaxed);
        let Some((name, _)) = tests.get(place) else {
            return;
        };
        let sent = sender.send((place, report_of(name, given)));
        sent.expect("the reports are read to their end");
    }
}

/// Prints each report once those of all tests before it are printed; answers how many passed.
fn print_in_order(reports: Receiver<(usize, Report)>) -> usize {
    let (mut waiting, mut printed, mut passed) = (BTreeMap::new(), 0, 0);
    for (place, report) in reports {
        waiting.insert(place, report);
        while let Some(report) = waiting.remove(&printed) {
            print!("{}", report.text);
            printed += 1;
            passed += usize::from(report.passed);
        }
    }
    passed
}

/// A test passes if it ends well and with its `ok` line. If it ends without a report, it is run once
/// more, traced, to name the call that ended it.
fn report_of(name: &str, given: &Given) -> Report {
    let ran = in_own_process(&[name], given);
    let mut text = String::from_utf8_lossy(&ran.stdout).into_owned();
    let last = text.lines().last().unwrap_or("");
    let passed = ran.status.success() && last.starts_with(&format!("ok   {name} ("));
    if !passed && !last.starts_with(&format!("FAIL {name}: ")) {
        let traced = in_own_process(&[name, TRACED], given);
        let traced = String::from_utf8_lossy(&traced.stdout);
        text += traced.lines().last().unwrap_or("");
        let status = ran.status;
        text += &format!("\nFAIL {name}: this call ended the process, {status}\n");
    }
    Report { text, passed }
}

fn in_own_process(arguments: &[&str], given: &Given) -> Output {
    let this_program = std::env::current_exe().expect("a running program has a path");
    Command::new(this_program)
        .args([&given.tables, &given.printer, &given.tool])
        .args(arguments)
        .stderr(Stdio::inherit())
        .output()
        .expect("this program can be started once more")
}

/// Runs the test of this name here and prints its line.
pub fn run_one(tests: &[NamedTest], given: &Given, name: &str, traced: bool) -> ExitCode {
    let Some((_, run)) = tests.iter().find(|test| test.0 == name) else {
        println!("FAIL {name}: no such test");
        return exit_code(false);
    };
    let mut test = Test::new(traced);
    let ending = panic::catch_unwind(AssertUnwindSafe(|| run(given, &mut test)));
    let Test { cases, failed, .. } = test;
    match ending {
        Err(reason) => println!(
            "FAIL {name}: panic after {cases} cases: {}",
            words_of(&*reason)
        ),
        Ok(()) if cases == 0 => println!("FAIL {name}: no case was run"),
        Ok(()) if failed > 0 => println!(
            "FAIL {name}: {failed} of {cases} cases, {} shown",
            failed.min(FAILURES_SHOWN)
        ),
        Ok(()) => {
            println!("ok   {name} ({cases} cases)");
            return exit_code(true);
        }
    }
    exit_code(false)
}

fn words_of(reason: &(dyn Any + Send)) -> &str {
    let text = reason.downcast_ref::<String>().map(String::as_str);
    text.or(reason.downcast_ref::<&str>().copied())
        .unwrap_or("without a message")
}

pub fn exit_code(good: bool) -> ExitCode {
    if good {
        ExitCode::SUCCESS
    } else {
        ExitCode::FAILURE
    }
}
