//! The harness: how the archive and the built programs are called, what they are asked, and how what
//! is seen of them is held to what is expected and reported.

pub mod archive;
pub mod caller;
pub mod every_status;
pub mod guarded;
pub mod known_messages;
pub mod lists;
pub mod message_faults;
pub mod mixed_faults;
pub mod noise;
pub mod ordered_faults;
pub mod program;
pub mod random;
pub mod report;
pub mod requests;
pub mod samples;
pub mod sent;
pub mod shown;
pub mod small_stack;
pub mod state;
pub mod tool;
