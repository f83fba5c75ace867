//! The checks: the named tests of the second implementation, of the archive and of the built programs.

mod blocks_reading;
mod blocks_writing;
mod coding;
mod fill;
mod lies;
mod link_4;
mod links;
mod message_lists;
mod message_writing;
mod messages;
mod outside;
mod parts;
mod parts_states;
mod printer;
mod readers;
mod refusals;
mod slots_reading;
mod slots_refusals;
mod slots_writing;
mod tool;
mod tool_messages;
mod tool_steps;
mod tool_use;
mod training;
mod words;
mod worked_burst;
mod zero_fill;

use crate::harness::report::NamedTest;

/// All of them, in the order in which they run.
pub fn all() -> Vec<NamedTest> {
    [
        words::TESTS,
        printer::TESTS,
        links::TESTS,
        coding::TESTS,
        worked_burst::TESTS,
        outside::TESTS,
        readers::TESTS,
        refusals::TESTS,
        messages::TESTS,
        fill::TESTS,
        lies::TESTS,
        message_writing::TESTS,
        zero_fill::TESTS,
        message_lists::TESTS,
        blocks_writing::TESTS,
        blocks_reading::TESTS,
        link_4::TESTS,
        slots_writing::TESTS,
        slots_reading::TESTS,
        slots_refusals::TESTS,
        training::TESTS,
        parts::TESTS,
        parts_states::TESTS,
        tool::TESTS,
        tool_steps::TESTS,
        tool_messages::TESTS,
        tool_use::TESTS,
    ]
    .concat()
}
