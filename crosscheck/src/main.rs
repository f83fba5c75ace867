//! The cross-check: an independent second implementation, written from the documents alone,
//! drives the archive and the built program call by call and compares.
//!
//! `crosscheck TABLES_DIR PRINTER_PATH TOOL_PATH` runs all tests; a test's name behind it runs that one, and
//! `traced` behind the name prints each call before it is made. `crosscheck soak TABLES_DIR CALLS
//! SEED` makes so many calls of each kind; `traced` behind it prints them too.

mod checks;
mod harness;
mod outside;
mod second;
mod soak;

use harness::report::{self, Given};
use std::{env, process::ExitCode};

/// The first argument that asks for the soak in the place of the tests.
const SOAK: &str = "soak";

fn main() -> ExitCode {
    let arguments: Vec<String> = env::args().skip(1).collect();
    let tests = checks::all();
    let (given, chosen) = match arguments.as_slice() {
        [mode, tables, rest @ ..] if mode == SOAK => {
            return soak::run(tables, rest).unwrap_or_else(wrong_use);
        }
        [tables, printer, tool, chosen @ ..] => (Given::new(tables, printer, tool), chosen),
        _ => return wrong_use(),
    };
    match chosen {
        [] => report::run_all(&tests, &given),
        [name] => report::run_one(&tests, &given, name, false),
        [name, how] if how == report::TRACED => report::run_one(&tests, &given, name, true),
        _ => wrong_use(),
    }
}

fn wrong_use() -> ExitCode {
    let traced = report::TRACED;
    eprintln!("use: crosscheck TABLES_DIR PRINTER_PATH TOOL_PATH [TEST [{traced}]]");
    eprintln!("     crosscheck {SOAK} TABLES_DIR CALLS SEED [{traced}]");
    ExitCode::from(2)
}
